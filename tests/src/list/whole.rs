//! Whole stacks: their lengths, how they arrive, and what they mix.

use crate::card::SIZE;
use crate::library::Library;
use crate::random::Random;
use crate::stack::stacks::{self, counted};
use crate::stack::MOST_CARDS;
use crate::tally::{Flow, Tally};

use super::{compare_list, compare_pieces};

const RANDOM_STACKS: usize = 200;

/// Every length up to three cards, and those around the most. A length cut to 16
/// bits would take 2,049 cards for one.
pub fn lengths(library: &Library, tally: &mut Tally) -> Flow {
    let most = MOST_CARDS * SIZE;
    let stack = counted(4 * MOST_CARDS + 1);
    let short = 0..=3 * SIZE;
    let long = [
        most - SIZE,
        most - 1,
        most,
        most + 1,
        most + SIZE - 1,
        most + SIZE,
        2 * most,
        2 * most + 1,
        2 * most + SIZE,
        4 * most,
        stack.len(),
    ];
    let tens = [9, 10, 11, 99, 100, 101, 999, 1000, 1001].map(|cards| cards * SIZE);
    for length in short.chain(long).chain(tens) {
        compare_list(library, tally, &stack[..length])?;
    }
    Flow::Continue(())
}

/// Stacks that do not arrive all at once: cut within a card, between cards, and
/// just at what is too long.
pub fn pieces(library: &Library, tally: &mut Tally) -> Flow {
    let stack = counted(MOST_CARDS + 1);
    let most = MOST_CARDS * SIZE;
    for cuts in [
        &[0, 1][..],
        &[1, 64],
        &[31, 32],
        &[32, 64],
        &[33, 96],
        &[1, 2, 33, 65, 100],
        &[most - 1, most],
        &[most, most + 1],
        &[most, most + SIZE],
        &[SIZE, most + SIZE],
        &[4096, 8192, 8193, most],
    ] {
        let mut start = 0;
        let mut pieces = Vec::new();
        for &end in cuts {
            pieces.push(&stack[start..end]);
            start = end;
        }
        compare_pieces(library, tally, &pieces)?;
    }
    Flow::Continue(())
}

pub fn random(library: &Library, tally: &mut Tally) -> Flow {
    let mut random = Random::new();
    for _ in 0..RANDOM_STACKS {
        let most_items = 1 + random.below(100_000);
        let stack = stacks::random(&mut random, most_items);
        compare_list(library, tally, &stack)?;
    }
    Flow::Continue(())
}
