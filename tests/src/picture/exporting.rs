//! Exports that are refused: by their cards, by lengths, and where several refusals compete.

use reference::card::Facts;

use crate::card::cards::{self, Stated};
use crate::card::{Card, ACCESS, KNOWN_EDITIONS, SIZE, WIDTH, WRITTEN};
use crate::layouts::{self, is_grouped, RANGE};
use crate::library::Library;
use crate::random::Random;
use crate::stack::stacks::refused_cards_of;
use crate::tally::{Flow, Tally};

use super::shots::{self, facts, lengths as right_lengths, open, random_bytes};
use super::{compare_export, compare_export_len, compare_exported};

const EDITIONS: [u8; 6] = [2, 4, 1, 3, 0, 5];

/// Cards of every kind at every edition: all that a reading accepts, and all that it refuses.
pub fn cards(library: &Library, tally: &mut Tally) -> Flow {
    for mut card in cards::chosen().into_iter().chain(refused_cards_of(7)) {
        // Two by three points, or an odd width that is refused for it.
        let odd = card[WIDTH] & 1;
        card[WIDTH..WIDTH + 4].copy_from_slice(&[2 + odd, 0, 3, 0]);
        for edition in 0..=u8::MAX {
            compare_export_len(library, tally, &card, edition)?;
        }
        for edition in EDITIONS {
            for packed in [18, 24, 30, 36, 48, 12, 0] {
                compare_exported(library, tally, &card, edition, &[0x5a; 48][..packed])?;
            }
        }
    }
    Flow::Continue(())
}

/// Every access number from every writer, at every edition. Only what is shown as open is
/// exported.
pub fn access(library: &Library, tally: &mut Tally) -> Flow {
    for layout in cards::layouts() {
        let facts = facts(layout, [2, 1], 0);
        let [packed, _] = right_lengths(&facts);
        let packed = vec![0x3c; packed];
        for written in cards::least(layout)..=6 {
            for access in 0..=u8::MAX {
                let mut card = cards::written_at(written, facts);
                card[ACCESS] = access;
                for edition in KNOWN_EDITIONS {
                    compare_exported(library, tally, &card, edition, &packed)?;
                }
            }
        }
    }
    Flow::Continue(())
}

/// Every byte of a card at each of its values.
pub fn single_bytes(library: &Library, tally: &mut Tally) -> Flow {
    for layout in cards::layouts() {
        let card = open(layout, [2, 1], 0);
        for place in 0..SIZE {
            for byte in 0..=u8::MAX {
                let mut changed = card;
                changed[place] = byte;
                for edition in [2, 4] {
                    compare_export_len(library, tally, &changed, edition)?;
                }
            }
        }
    }
    Flow::Continue(())
}

/// All combinations of a card's length, edition, bytes 0 and 1, range or field, access and a
/// byte after it, and of the lengths of points and file, each right or wrong.
pub fn competing(library: &Library, tally: &mut Tally) -> Flow {
    let mut turn = 0;
    for layout in cards::layouts() {
        let facts = facts(layout, [2, 1], 0);
        for card in stated(facts) {
            for (length, editions) in [
                (SIZE, &EDITIONS[..]),
                (SIZE - 1, &[4, 5]),
                (SIZE + 1, &[0, 2]),
            ] {
                let mut card = card.to_vec();
                card.resize(length, 0);
                for &edition in editions {
                    compare_export_len(library, tally, &card, edition)?;
                    for [packed, file] in around(facts, turn) {
                        let packed = vec![0x77; packed];
                        compare_export(library, tally, &card, edition, &packed, file)?;
                    }
                    turn += 1;
                }
            }
        }
    }
    Flow::Continue(())
}

/// Cards with bytes 0 and 1, a field, the access and a byte after it right or wrong.
fn stated(facts: Facts) -> Vec<Card> {
    let fields: [&[(usize, u8)]; 5] = [
        &[],
        &[(11, 1)],
        &[(WIDTH, 3)],
        // Another range, for which byte 0 may have to be another.
        &[(4, 3)],
        &[(4, 2)],
    ];
    let stated = Stated {
        least: &[cards::least(facts.layout), 3, 0, 5],
        written: &[2, 1, 3, 4, 5],
        fields: &fields,
        access: &[2, 0, 1, 3],
        after: &[None, Some(SIZE - 1)],
    };
    stated.cards(facts)
}

/// Right lengths of points and file, and either and both of them wrong, which ways take
/// turns.
fn around(facts: Facts, turn: usize) -> [[usize; 2]; 4] {
    let [packed, file] = right_lengths(&facts);
    let other_packed = [packed + 1, packed - 1, 0][turn % 3];
    let other_file = [file - 1, file + 1, 0, packed][turn % 4];
    [
        [packed, file],
        [other_packed, file],
        [packed, other_file],
        [other_packed, other_file],
    ]
}

/// Every length of points and of a file up to some more than needed, in layouts of every size;
/// then lengths that would be right if they were cut to 8 or 16 bits, and those of other
/// layouts' points.
pub fn lengths(library: &Library, tally: &mut Tally) -> Flow {
    let mut random = Random::new();
    let bytes = random_bytes(&mut random, 70_000);
    for (turn, mut layout) in layouts::one_of_each_size_and_groups().enumerate() {
        if !is_grouped(layout) {
            layout[RANGE] = 1 + turn as u8 % 2;
        }
        let facts = facts(layout, [3, 2], turn);
        let [packed, file] = right_lengths(&facts);
        let card = cards::card(facts);
        for length in 0..=packed + 9 {
            compare_export(library, tally, &card, 4, &bytes[..length], file)?;
        }
        for length in 0..=file + 9 {
            compare_export(library, tally, &card, 4, &bytes[..packed], length)?;
            compare_export(library, tally, &card, 1, &bytes[..packed], length)?;
        }
        for more in [256, 65_536] {
            compare_export(library, tally, &card, 4, &bytes[..packed + more], file)?;
            compare_export(library, tally, &card, 4, &bytes[..packed], file + more)?;
        }
        for other in shots::every_way() {
            let [packed, file] = right_lengths(&Facts {
                layout: other,
                ..facts
            });
            compare_export(library, tally, &card, 4, &bytes[..packed], file)?;
        }
        // The lengths of a picture of other sides.
        for [width, height] in [[2, 3], [4, 1], [6, 1], [1, 1], [300, 2]] {
            let [packed, file] = right_lengths(&Facts {
                width,
                height,
                ..facts
            });
            compare_export(library, tally, &card, 4, &bytes[..packed], file)?;
        }
        // A card from a later edition is no other picture.
        let mut later = card;
        later[WRITTEN] = 5;
        compare_export(library, tally, &later, 4, &bytes[..packed], file)?;
    }
    Flow::Continue(())
}
