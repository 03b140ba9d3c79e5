//! The history of a card, by calls on cards and lines, one after the other.

use crate::card::SIZE;
use crate::guarded::Guarded;
use crate::history::replays::{fits, DECODED, READ};
use crate::library::card::Told;
use crate::library::history::Replaying;
use crate::library::Library;

/// A replay by the functions of a library.
pub fn replayed(asked: &mut Replaying, library: &Library) -> i64 {
    let mut card = Guarded::new(SIZE);
    let answer = (library.card_write)(asked.first, asked.facts, &mut card);
    if answer != 0 {
        return answer;
    }
    if !fits(asked) {
        return -13;
    }
    let mut at = 0;
    for turn in 0..asked.editions.length() {
        let length = asked.lengths.elements()[turn] as usize;
        let mut out = Guarded::holding(&asked.outputs.elements()[at..][..length]);
        let edition = asked.editions.elements()[turn];
        let answer = (library.card_rewrite)(&mut card, edition, &mut out);
        asked.outputs.output()[at..][..length].copy_from_slice(out.elements());
        asked.answers.output()[turn] = answer.unsigned_abs() as u8;
        if answer == 0 {
            card = Guarded::holding(out.elements());
        }
        at += length;
    }
    asked.card.output().copy_from_slice(card.elements());
    let mut told = Told::new();
    let answer = (library.card_read)(&mut card, asked.last, &mut told);
    let mut read = [0; READ];
    let mut decoded = [answer.unsigned_abs(), 0];
    read[0] = answer.unsigned_abs();
    if answer == 0 {
        let bytes = told.layout.elements().iter();
        let numbers = bytes.map(|&byte| byte.into());
        let facts = told.facts.elements().iter().copied();
        for (place, number) in read[1..].iter_mut().zip(numbers.chain(facts)) {
            *place = number;
        }
        let layout = told.layout.elements().try_into().expect("nine numbers");
        decoded = match (library.decode_line)(layout, asked.packed.elements(), &mut asked.values) {
            points @ 0.. => [0, points as u64],
            refused => [refused.unsigned_abs(), 0],
        };
    }
    asked.read.output().copy_from_slice(&read);
    asked.decoded.output()[..DECODED].copy_from_slice(&decoded);
    0
}
