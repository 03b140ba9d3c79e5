//! Cards: one comparison of each function with the reference, and the parts that
//! choose what to compare.

use reference::card::{self, Facts};

use crate::guarded::{Guarded, Outcome};
use crate::library::card::{CardRead, CardRewrite, Told};
use crate::library::Library;
use crate::part::{part, Part};
use crate::quantization::refused;
use crate::tally::{Flow, Tally};

pub mod cards;
mod changes;
mod editions;
mod examples;
mod numbers;
mod reading;
mod rewriting;
mod writing;

/// The parts that try a library, the quick ones first: most wrong programs are
/// caught by them.
pub const PARTS: &[Part] = &[
    part("cards, written out by hand", examples::written_out),
    part("cards, every edition asked", editions::asked),
    part("rewrite, lists of editions", rewriting::lists),
    part("rewrite, every edition and room", rewriting::rooms),
    part("write a card, refusals that compete", writing::competing),
    part("write a card, layouts outside", writing::layouts_outside),
    part("cards, items and access", numbers::items_and_access),
    part("cards, lengths", reading::lengths),
    part("cards, refusals that compete", reading::competing),
    part("cards, every width and height", numbers::sides),
    part("cards, access and who wrote it", editions::access),
    part("cards, bytes 0 and 1", editions::least_and_written),
    part("cards, bytes changed in pairs", changes::pairs),
    part("cards, random changes in pairs", changes::random_pairs),
    part("cards, random bytes", changes::random),
    part("cards, single bytes changed", changes::single),
    part("cards, every layout", writing::every_layout),
];

pub const SIZE: usize = card::SIZE;

pub type Card = [u8; SIZE];

/// Places in a card.
pub const LEAST: usize = 0;
pub const WRITTEN: usize = 1;
pub const RANGE: usize = 4;
pub const DEPTH: usize = 5;
pub const SAMPLING: usize = 7;
pub const WIDTH: usize = 12;
pub const ITEM: usize = 16;
pub const ACCESS: usize = 24;

pub const KNOWN_EDITIONS: [u8; 4] = [1, 2, 3, 4];

/// Lengths of room for a card, of which one is right.
const ROOMS: [usize; 5] = [SIZE, 0, SIZE - 1, SIZE + 1, 2 * SIZE];

/// The reference's answer, with the memory as it must be afterwards.
pub fn expected_read(card: &mut Guarded<u8>, edition: u8, told: &mut Told) -> i64 {
    match card::read(card.elements(), edition) {
        Ok(facts) => {
            told.store(facts);
            0
        }
        Err(refusal) => refused(refusal),
    }
}

pub fn expected_write(edition: u8, facts: Facts, out: &mut Guarded<u8>) -> i64 {
    match card::write(edition, facts, out.output()) {
        Ok(()) => 0,
        Err(refusal) => refused(refusal),
    }
}

pub fn expected_rewrite(card: &mut Guarded<u8>, edition: u8, out: &mut Guarded<u8>) -> i64 {
    match card::rewrite(card.elements(), edition, out.output()) {
        Ok(()) => 0,
        Err(refusal) => refused(refusal),
    }
}

/// What a reading answers and stores, and the card as it leaves it.
#[derive(PartialEq)]
struct Reading {
    answer: i64,
    told: Told,
    card: Guarded<u8>,
}

impl Reading {
    fn of(read: CardRead, card: &[u8], edition: u8) -> Reading {
        let mut card = Guarded::holding(card);
        let mut told = Told::new();
        let answer = read(&mut card, edition, &mut told);
        Reading { answer, told, card }
    }

    /// What is answered and stored; what lies beside it is not shown.
    fn words(&self) -> String {
        format!(
            "{}, {:?}, {:?}",
            self.answer,
            self.told.layout.elements(),
            self.told.facts.elements()
        )
    }
}

/// What a rewriting answers and stores, and the card as it leaves it.
#[derive(PartialEq)]
struct Rewriting {
    outcome: Outcome<u8>,
    card: Guarded<u8>,
}

impl Rewriting {
    fn of(rewrite: CardRewrite, card: &[u8], edition: u8, length: usize) -> Rewriting {
        let mut card = Guarded::holding(card);
        let outcome = Outcome::of(length, |out| rewrite(&mut card, edition, out));
        Rewriting { outcome, card }
    }
}

fn compare_read(library: &Library, tally: &mut Tally, card: &[u8], edition: u8) -> Flow {
    let reading = Reading::of(library.card_read, card, edition);
    let expected = Reading::of(expected_read, card, edition);
    tally.compare(reading == expected, || {
        format!(
            "read {card:?} at {edition}: {}; must be {}{}",
            reading.words(),
            expected.words(),
            changed(reading.card == expected.card)
        )
    })
}

/// A reading at every edition that is known.
fn compare_read_at_known(library: &Library, tally: &mut Tally, card: &[u8]) -> Flow {
    for edition in KNOWN_EDITIONS {
        compare_read(library, tally, card, edition)?;
    }
    Flow::Continue(())
}

/// A reading at every edition. Those that are not known are one comparison, of all
/// their answers and of the memory after them. Only 1 and 7 can be answered to
/// them, and the same to each, so the reference is asked at one.
fn compare_read_at_all(library: &Library, tally: &mut Tally, card: &[u8]) -> Flow {
    compare_read_at_known(library, tally, card)?;
    let mut lent = Guarded::holding(card);
    let mut told = Told::new();
    let expected = Reading::of(expected_read, card, 0).answer;
    let differing = unknown_editions()
        .map(|edition| (edition, (library.card_read)(&mut lent, edition, &mut told)))
        .find(|&(_, answer)| answer != expected);
    let kept = lent == Guarded::holding(card) && told == Told::new();
    tally.compare(differing.is_none() && kept, || match differing {
        Some((edition, answer)) => {
            format!("read {card:?} at {edition}: {answer}, must be {expected}")
        }
        None => format!("read {card:?} at an edition that is not known: memory is changed"),
    })
}

fn compare_write(
    library: &Library,
    tally: &mut Tally,
    edition: u8,
    facts: Facts,
    length: usize,
) -> Flow {
    let outcome = Outcome::of(length, |out| (library.card_write)(edition, facts, out));
    let expected = Outcome::of(length, |out| expected_write(edition, facts, out));
    tally.compare(outcome == expected, || {
        format!(
            "write {facts:?} at {edition} to {length} bytes: {}",
            outcome.unlike(&expected)
        )
    })
}

fn compare_rewrite(
    library: &Library,
    tally: &mut Tally,
    card: &[u8],
    edition: u8,
    length: usize,
) -> Flow {
    let rewriting = Rewriting::of(library.card_rewrite, card, edition, length);
    let expected = Rewriting::of(expected_rewrite, card, edition, length);
    tally.compare(rewriting == expected, || {
        format!(
            "rewrite {card:?} at {edition} to {length} bytes: {}{}",
            rewriting.outcome.unlike(&expected.outcome),
            changed(rewriting.card == expected.card)
        )
    })
}

fn unknown_editions() -> impl Iterator<Item = u8> {
    (0..=u8::MAX).filter(|edition| !KNOWN_EDITIONS.contains(edition))
}

fn changed(kept: bool) -> &'static str {
    if kept {
        ""
    } else {
        "; the card is changed"
    }
}
