//! What is found, and where.

use crate::card::KNOWN_EDITIONS;
use crate::library::Library;
use crate::random::Random;
use crate::tally::{Flow, Tally};

use super::stacks::{
    self, card_of, card_of_12_bits, card_of_groups, counted, older_card_of, refused_cards_of,
};
use super::{compare_find, MOST_CARDS};

const RANDOM_STACKS: usize = 3000;

/// Refused cards of the same item and of another, of every kind, before the match,
/// after it, on both sides and without one.
pub fn after_refused(library: &Library, tally: &mut Tally) -> Flow {
    let good = card_of(7, 1);
    let again = card_of(7, 2);
    let other = card_of(8, 0);
    let mut refused = refused_cards_of(7);
    refused.extend(refused_cards_of(8));
    refused.push(card_of_12_bits(7));
    refused.extend([0, 1, 2].map(|turn| older_card_of(7, turn)));
    refused.push(card_of_groups(7, 1));
    refused.push([0; 32]);
    refused.push([255; 32]);
    for bad in refused {
        for stack in [
            &[bad][..],
            &[bad, good],
            &[good, bad],
            &[other, bad, good],
            &[bad, bad, other, good, again],
            &[bad, good, bad, again, bad],
            &[other, bad, other],
        ] {
            for edition in KNOWN_EDITIONS {
                for item in [7, 8, 9] {
                    compare_find(library, tally, &stack.concat(), edition, item)?;
                }
            }
        }
    }
    Flow::Continue(())
}

/// Items that differ from the one looked for in one bit.
pub fn near_items(library: &Library, tally: &mut Tally) -> Flow {
    for item in [1, 7, u64::MAX, 0x0102_0304_0506_0708] {
        for bit in 0..64 {
            let near = item ^ 1 << bit;
            // Item 0 is refused, and passed over.
            let first = match near {
                0 => [0; 32],
                _ => card_of(near, bit),
            };
            let stack = [first, card_of(item, bit + 1)].concat();
            for edition in KNOWN_EDITIONS {
                compare_find(library, tally, &stack, edition, item)?;
                compare_find(library, tally, &stack, edition, near)?;
            }
        }
    }
    Flow::Continue(())
}

/// Each item that may be there, and one that is not.
pub fn random(library: &Library, tally: &mut Tally) -> Flow {
    let mut random = Random::new();
    for _ in 0..RANDOM_STACKS {
        let most_items = 1 + random.below(6);
        let stack = stacks::random(&mut random, most_items);
        for item in 1..=most_items as u64 + 1 {
            for edition in KNOWN_EDITIONS {
                compare_find(library, tally, &stack, edition, item)?;
            }
        }
    }
    Flow::Continue(())
}

/// Each card of a full stack in turn. Then its item is there again as the last card.
pub fn every_place(library: &Library, tally: &mut Tally) -> Flow {
    let mut stack = counted(MOST_CARDS);
    for place in 0..MOST_CARDS {
        let item = place as u64 + 1;
        let edition = KNOWN_EDITIONS[place % KNOWN_EDITIONS.len()];
        compare_find(library, tally, &stack, edition, item)?;
        let last = stack.len() - 32;
        stack[last..].copy_from_slice(&card_of(item, place));
        compare_find(library, tally, &stack, edition, item)?;
        compare_find(library, tally, &stack, edition, MOST_CARDS as u64)?;
        stack.truncate(last);
        stack.extend(card_of(MOST_CARDS as u64, place));
    }
    Flow::Continue(())
}
