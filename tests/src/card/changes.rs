//! Accepted cards with bytes changed, and bytes that are no cards.

use crate::library::Library;
use crate::random::Random;
use crate::tally::{Flow, Tally};

use super::cards;
use super::{
    compare_read_at_all, compare_read_at_known, compare_rewrite, Card, KNOWN_EDITIONS, SIZE,
};

/// What each of two bytes is changed to.
const TELLING: [u8; 8] = [0, 1, 2, 3, 4, 5, 12, 255];
/// Times that each two bytes are changed together to random ones.
const RANDOM_CHANGES: usize = 4;
const RANDOM_CARDS: usize = 40_000;

/// All values of all bytes, at all editions that are known, and every fourth at all
/// editions.
pub fn single(library: &Library, tally: &mut Tally) -> Flow {
    for card in cards::chosen() {
        for place in 0..SIZE {
            for byte in 0..=u8::MAX {
                let mut changed = card;
                changed[place] = byte;
                if usize::from(byte) % 4 == place % 4 {
                    compare_read_at_all(library, tally, &changed)?;
                } else {
                    compare_read_at_known(library, tally, &changed)?;
                }
                let edition = KNOWN_EDITIONS[usize::from(byte) % KNOWN_EDITIONS.len()];
                compare_rewrite(library, tally, &changed, edition, SIZE)?;
            }
        }
    }
    Flow::Continue(())
}

/// Each two bytes, each at the numbers that tell most, so that any two refusals
/// compete.
pub fn pairs(library: &Library, tally: &mut Tally) -> Flow {
    for card in cards::chosen().into_iter().step_by(5) {
        for (first, second) in places() {
            for one in TELLING {
                for other in TELLING {
                    let mut changed = card;
                    changed[first] = one;
                    changed[second] = other;
                    compare_read_at_known(library, tally, &changed)?;
                }
            }
        }
    }
    Flow::Continue(())
}

/// Each two bytes at random numbers, at all editions that are known, and once at all
/// editions.
pub fn random_pairs(library: &Library, tally: &mut Tally) -> Flow {
    let mut random = Random::new();
    for card in cards::chosen() {
        for (first, second) in places() {
            for change in 0..RANDOM_CHANGES {
                let mut changed = card;
                changed[first] = random.next() as u8;
                changed[second] = random.next() as u8;
                if change == 0 {
                    compare_read_at_all(library, tally, &changed)?;
                } else {
                    compare_read_at_known(library, tally, &changed)?;
                }
            }
        }
    }
    Flow::Continue(())
}

/// Random bytes from each place on, up to which the card is good.
pub fn random(library: &Library, tally: &mut Tally) -> Flow {
    let mut random = Random::new();
    let cards: Vec<Card> = cards::chosen();
    for (card, good) in cards
        .into_iter()
        .cycle()
        .zip((0..=SIZE).cycle())
        .take(RANDOM_CARDS)
    {
        let mut changed = card;
        changed[good..].fill_with(|| random.next() as u8);
        compare_read_at_all(library, tally, &changed)?;
        for edition in KNOWN_EDITIONS {
            compare_rewrite(library, tally, &changed, edition, SIZE)?;
        }
    }
    Flow::Continue(())
}

fn places() -> impl Iterator<Item = (usize, usize)> {
    (0..SIZE).flat_map(|first| (first + 1..SIZE).map(move |second| (first, second)))
}
