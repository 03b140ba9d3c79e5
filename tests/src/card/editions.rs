//! The edition that wrote a card, the least that can read it, the one that is
//! asked, and the access that is shown.

use crate::library::Library;
use crate::tally::{Flow, Tally};

use super::cards;
use super::{
    compare_read, compare_read_at_known, compare_rewrite, ACCESS, KNOWN_EDITIONS, LEAST, SIZE,
    WRITTEN,
};

/// Every edition asked, of cards that are accepted at 4.
pub fn asked(library: &Library, tally: &mut Tally) -> Flow {
    for card in cards::chosen() {
        for edition in 0..=u8::MAX {
            compare_read(library, tally, &card, edition)?;
            compare_rewrite(library, tally, &card, edition, SIZE)?;
        }
    }
    Flow::Continue(())
}

/// Every edition that may have written a card, with every access number, alone and
/// with one of the bytes after it, which take turns, read at every edition that is
/// known, and rewritten at one of them. Those from the first six editions are
/// rewritten at each, and read at 5 and 6 too.
pub fn access(library: &Library, tally: &mut Tally) -> Flow {
    let mut after = (ACCESS + 1..SIZE).cycle();
    for layout in [
        cards::layout(8),
        cards::layout(12),
        cards::older(10),
        cards::older(12),
        cards::groups(),
    ] {
        for written in 0..=u8::MAX {
            let mut card = cards::written_at(written, cards::facts_in_turn(layout, 0));
            for access in 0..=u8::MAX {
                card[ACCESS] = access;
                let place = after.next().expect("places without end");
                for byte in [0, 1 + access / 2] {
                    card[place] = byte;
                    compare_read_at_known(library, tally, &card)?;
                    if written <= 6 {
                        for edition in KNOWN_EDITIONS {
                            compare_rewrite(library, tally, &card, edition, SIZE)?;
                        }
                        compare_read(library, tally, &card, 5)?;
                        compare_read(library, tally, &card, 6)?;
                    } else {
                        let turn = usize::from(written) + usize::from(access);
                        let edition = KNOWN_EDITIONS[turn % KNOWN_EDITIONS.len()];
                        compare_rewrite(library, tally, &card, edition, SIZE)?;
                    }
                }
                card[place] = 0;
            }
        }
    }
    Flow::Continue(())
}

/// All values of both bytes, with every depth, in the older full range and not, and of
/// groups.
pub fn least_and_written(library: &Library, tally: &mut Tally) -> Flow {
    for layout in cards::layouts() {
        let mut card = cards::card(cards::facts_in_turn(layout, 0));
        for least in 0..=u8::MAX {
            card[LEAST] = least;
            for written in 0..=u8::MAX {
                card[WRITTEN] = written;
                compare_read_at_known(library, tally, &card)?;
                compare_read(library, tally, &card, written)?;
            }
        }
    }
    Flow::Continue(())
}
