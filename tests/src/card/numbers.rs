//! Sizes, items and access numbers, written and read.

use reference::card::Facts;

use crate::library::Library;
use crate::tally::{Flow, Tally};

use super::cards;
use super::{compare_read, compare_write, Card, ITEM, KNOWN_EDITIONS, SIZE, WIDTH};

const HEIGHT: usize = 14;

/// All 65,536 numbers for each side, with a good one for the other, of points and of
/// groups, whose widths are even.
pub fn sides(library: &Library, tally: &mut Tally) -> Flow {
    for layout in [cards::layout(10), cards::groups()] {
        sides_of(library, tally, cards::facts_in_turn(layout, 0))?;
    }
    Flow::Continue(())
}

fn sides_of(library: &Library, tally: &mut Tally, facts: Facts) -> Flow {
    let card = cards::card(facts);
    for side in 0..=u16::MAX {
        let wide = Facts {
            width: side,
            ..facts
        };
        let high = Facts {
            height: side,
            ..facts
        };
        for (place, facts) in [(WIDTH, wide), (HEIGHT, high)] {
            let card = holding(card, place, &side.to_le_bytes());
            compare_both(library, tally, card, facts)?;
        }
    }
    Flow::Continue(())
}

/// Items of one byte and of all bits but one; every access number at every edition.
pub fn items_and_access(library: &Library, tally: &mut Tally) -> Flow {
    for layout in cards::layouts() {
        let facts = cards::facts_in_turn(layout, 0);
        let card = cards::card(facts);
        for item in items() {
            let card = holding(card, ITEM, &item.to_le_bytes());
            compare_both(library, tally, card, Facts { item, ..facts })?;
        }
        for access in 0..=u8::MAX {
            for edition in 0..=u8::MAX {
                let facts = Facts { access, ..facts };
                compare_write(library, tally, edition, facts, SIZE)?;
            }
        }
    }
    Flow::Continue(())
}

/// Each byte alone at all its values, and all bits but one.
fn items() -> impl Iterator<Item = u64> {
    let bytes = (0..8).flat_map(|place| (0..=255).map(move |byte| byte << (8 * place)));
    bytes.chain((0..64).map(|bit| !(1 << bit)))
}

fn compare_both(library: &Library, tally: &mut Tally, card: Card, facts: Facts) -> Flow {
    for edition in KNOWN_EDITIONS {
        compare_read(library, tally, &card, edition)?;
        compare_write(library, tally, edition, facts, SIZE)?;
    }
    Flow::Continue(())
}

fn holding(mut card: Card, place: usize, bytes: &[u8]) -> Card {
    card[place..][..bytes.len()].copy_from_slice(bytes);
    card
}
