//! The history of one card in plain Rust.

use super::cards::{self, Facts, BYTES};
use super::lines;
use super::refusal::LENGTH;

/// The numbers of a reading: its refusal's, layout, width, height, item, access.
pub const READ: usize = 14;

/// What a replay is given.
#[derive(Clone, Debug)]
pub struct History {
    pub first: u8,
    pub facts: Facts,
    pub editions: Vec<u8>,
    pub lengths: Vec<usize>,
    pub last: u8,
    pub packed: Vec<u8>,
}

/// What it leaves.
#[derive(Clone, PartialEq)]
pub struct Replayed {
    pub card: Vec<u8>,
    pub outputs: Vec<u8>,
    pub answers: Vec<u8>,
    pub values: Vec<f32>,
    pub read: [u64; READ],
    pub decoded: [u64; 2],
}

pub fn replay(history: &History, replayed: &mut Replayed) -> i64 {
    let mut start = [0; BYTES];
    let written = cards::write(history.first, history.facts, &mut start);
    if written != 0 {
        return written;
    }
    if !fits(history, replayed) {
        return LENGTH;
    }
    let Replayed {
        card,
        outputs,
        answers,
        values,
        read,
        decoded,
    } = replayed;
    card.copy_from_slice(&start);
    let mut left = &mut outputs[..];
    let rewrites = history.editions.iter().zip(&history.lengths);
    for ((&edition, &length), answer) in rewrites.zip(answers) {
        let (output, rest) = left.split_at_mut(length);
        left = rest;
        let rewritten = cards::rewrite(card, edition, output);
        if rewritten == 0 {
            card.copy_from_slice(output);
        }
        *answer = -rewritten as u8;
    }
    *read = [0; READ];
    *decoded = [0; 2];
    match cards::shown(card, history.last) {
        Ok(facts) => {
            for (place, number) in read[1..10].iter_mut().zip(facts.layout) {
                *place = number.into();
            }
            read[10..].copy_from_slice(&facts.numbers());
            let answer = lines::decode_line(facts.layout, &history.packed, values);
            decoded[usize::from(answer >= 0)] = answer.unsigned_abs();
        }
        Err(refusal) => {
            read[0] = refusal.unsigned_abs();
            decoded[0] = refusal.unsigned_abs();
        }
    }
    0
}

fn fits(history: &History, replayed: &Replayed) -> bool {
    let total = history
        .lengths
        .iter()
        .try_fold(0, |sum: usize, &length| sum.checked_add(length));
    replayed.card.len() == BYTES
        && history.lengths.len() == history.editions.len()
        && replayed.answers.len() == history.editions.len()
        && total == Some(replayed.outputs.len())
}
