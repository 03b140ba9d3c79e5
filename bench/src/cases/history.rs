//! Histories of rewrites, some of which are refused.

use super::cards::any_facts;
use super::label;
use crate::case::Case;
use crate::library;
use crate::plain;
use crate::plain::cards::{BYTES, NEWEST};
use crate::plain::history::{History, Replayed, READ};
use crate::plain::layout::packed_bytes;
use crate::random::Random;

const HISTORIES: u64 = 32;
const REWRITES: usize = 16;
const POINTS: usize = 16;

pub fn cases() -> Result<Vec<Case>, String> {
    let mut random = Random::new();
    let histories: Vec<History> = (1..=HISTORIES)
        .map(|item| any_history(&mut random, item))
        .collect();
    let mut refused = vec![histories[0].clone(); 4];
    refused[0].first = NEWEST + 1;
    refused[1].facts.item = 0;
    refused[2].first = 1;
    refused[2].facts.access = 2;
    refused[3].lengths[0] += 1;
    let replay = Case::calls(
        label("replay", "16 rewrites, 16 points", "any histories"),
        histories,
        &refused,
        Replayed {
            card: vec![0; BYTES],
            outputs: vec![0; lengths().iter().sum()],
            answers: vec![0; REWRITES],
            values: vec![0.0; 3 * POINTS],
            read: [0; READ],
            decoded: [0; 2],
        },
        [library::history::replay, plain::history::replay],
    )?;
    Ok(vec![replay])
}

/// First written and last read at the newest edition; one in nine rewrites is at 1,
/// one in nine at an edition that is not known, and a third are at 2.
fn any_history(random: &mut Random, item: u64) -> History {
    let facts = any_facts(random, item);
    let edition = |_| match random.below(9) {
        0 => 1,
        1 => NEWEST + 1,
        2..=4 => 2,
        _ => NEWEST,
    };
    let editions = (0..REWRITES).map(edition).collect();
    History {
        first: NEWEST,
        facts,
        editions,
        lengths: lengths(),
        last: NEWEST,
        packed: (0..packed_bytes(facts.layout, POINTS))
            .map(|_| random.next() as u8)
            .collect(),
    }
}

/// All outputs are cards, but for one that is a byte short.
fn lengths() -> Vec<usize> {
    let mut lengths = vec![BYTES; REWRITES];
    lengths[REWRITES / 2] -= 1;
    lengths
}
