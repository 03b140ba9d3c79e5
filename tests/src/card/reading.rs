//! Readings and rewritings that are refused: by length, and where several
//! refusals compete.

use crate::library::{Layout, Library};
use crate::tally::{Flow, Tally};

use super::cards::{self, Stated};
use super::{
    compare_read, compare_read_at_all, compare_rewrite, Card, ACCESS, LEAST, ROOMS, SAMPLING, SIZE,
    WIDTH,
};

const EDITIONS: [u8; 8] = [1, 2, 3, 4, 0, 5, 6, 255];

/// Changes of bytes 2 to 23, with none first. Together they reach every field.
const FIELDS: [&[(usize, u8)]; 28] = [
    &[],
    &[(2, 0)],
    &[(2, 3)],
    &[(3, 0)],
    &[(3, 5)],
    &[(4, 0)],
    &[(4, 4)],
    // Another range, which may need another byte 0.
    &[(4, 2)],
    &[(4, 3)],
    &[(5, 9)],
    &[(5, 16)],
    &[(6, 2)],
    &[(6, 9)],
    // The other sampling, which has other offsets, and none that is known.
    &[(SAMPLING, 0)],
    &[(SAMPLING, 1)],
    &[(SAMPLING, 2)],
    // Past the point's end; the same place for two fields.
    &[(8, 255)],
    &[(8, 0), (9, 0)],
    &[(11, 1)],
    &[(12, 0), (13, 0)],
    // 4,097.
    &[(12, 1), (13, 16)],
    // An odd width, alone and with a field that is wrong: 721 and 4,095.
    &[(WIDTH, 0xd1)],
    &[(WIDTH, 255), (13, 15)],
    &[(WIDTH, 0xd1), (3, 5)],
    &[(WIDTH, 0xd1), (SAMPLING, 2)],
    &[(WIDTH, 0xd1), (11, 1)],
    &[(14, 1), (15, 16)],
    &[
        (16, 0),
        (17, 0),
        (18, 0),
        (19, 0),
        (20, 0),
        (21, 0),
        (22, 0),
        (23, 0),
    ],
];

/// Every length up to two cards and more, with bytes that are right, and with bytes
/// that other refusals speak of.
pub fn lengths(library: &Library, tally: &mut Tally) -> Flow {
    for card in cards::chosen() {
        for least in [card[LEAST], 0, 5] {
            let mut cards = [card; 3].concat();
            cards[LEAST] = least;
            for length in 0..=cards.len() {
                compare_read_at_all(library, tally, &cards[..length])?;
                for edition in EDITIONS {
                    compare_rewrite(library, tally, &cards[..length], edition, SIZE)?;
                }
            }
        }
    }
    // A length cut to 8 or 16 bits would take these for a card's.
    for length in [256 + SIZE, 65_536 + SIZE] {
        let card = cards::card(cards::facts(8));
        let cards: Vec<u8> = card.into_iter().cycle().take(length).collect();
        compare_read_at_all(library, tally, &cards)?;
        compare_rewrite(library, tally, &cards, 2, SIZE)?;
        compare_rewrite(library, tally, &card, 2, length)?;
    }
    Flow::Continue(())
}

/// All combinations of lengths, editions, bytes 0 and 1, a field, an access and a
/// byte after it, each right or wrong; rewritings into rooms that take turns.
pub fn competing(library: &Library, tally: &mut Tally) -> Flow {
    let mut rooms = ROOMS.into_iter().cycle();
    for card in cards::layouts().into_iter().flat_map(stated) {
        for (length, editions) in [
            (SIZE, &EDITIONS[..]),
            (SIZE - 1, &[4, 5]),
            (SIZE + 1, &[0, 2]),
        ] {
            let mut card = card.to_vec();
            card.resize(length, 0);
            for &edition in editions {
                compare_read(library, tally, &card, edition)?;
                let room = rooms.next().expect("rooms without end");
                compare_rewrite(library, tally, &card, edition, room)?;
            }
        }
    }
    Flow::Continue(())
}

/// The cards of a layout that have bytes 0 and 1, a field, an access and a byte after
/// it right or wrong.
fn stated(layout: Layout) -> Vec<Card> {
    let stated = Stated {
        least: &[1, 2, 3, 4, 0, 5, 255],
        written: &[2, 1, 0, 3, 4, 5, 255],
        fields: &FIELDS,
        access: &[0, 2, 3],
        after: &[None, Some(ACCESS + 1), Some(SIZE - 1)],
    };
    stated.cards(cards::facts_in_turn(layout, 0))
}
