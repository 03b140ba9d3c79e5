//! Lengths of stacks, and every edition asked.

use crate::card::SIZE;
use crate::library::Library;
use crate::tally::{Flow, Tally};

use super::stacks::{
    card_of, card_of_12_bits, card_of_groups, counted, older_card_of, refused_cards_of,
};
use super::{compare_find, MOST_CARDS};

/// Numbers of cards: few, the most and more. A length cut to 16 bits would take
/// 2,049 cards for one.
const CARDS: [usize; 10] = [0, 1, 2, 3, 31, 1023, MOST_CARDS, 1025, 2048, 2049];

/// Each length with up to a card of bytes more, for the first item, the last and
/// none, at good editions and others.
pub fn lengths(library: &Library, tally: &mut Tally) -> Flow {
    for cards in CARDS {
        let stack = counted(cards + 1);
        for more in 0..SIZE {
            for item in [1, cards as u64, cards as u64 + 1, 0] {
                for edition in [1, 2, 3, 4, 0, 5] {
                    let stack = &stack[..cards * SIZE + more];
                    compare_find(library, tally, stack, edition, item)?;
                }
            }
        }
    }
    Flow::Continue(())
}

/// Every edition, in stacks that are found in, that are not, and that are refused.
pub fn editions(library: &Library, tally: &mut Tally) -> Flow {
    let mixed = [
        card_of(1, 0),
        card_of_groups(7, 0),
        older_card_of(7, 0),
        card_of_12_bits(7),
        card_of(7, 1),
    ]
    .concat();
    let refused = refused_cards_of(7).concat();
    for stack in [&mixed[..], &refused, &[], &mixed[..33], &counted(1025)] {
        for edition in 0..=u8::MAX {
            for item in [7, 8] {
                compare_find(library, tally, stack, edition, item)?;
            }
        }
    }
    Flow::Continue(())
}
