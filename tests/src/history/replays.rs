//! Whole histories in one call.

use reference::card::Facts;
use reference::history::Book;
use reference::refusal::Refusal;

use crate::card::cards;
use crate::card::SIZE;
use crate::guarded::Guarded;
use crate::library::history::{Replay, Replaying};
use crate::library::Library;
use crate::quantization::refused;
use crate::random::Random;
use crate::tally::{Flow, Tally};

use super::{any_layout, edition, line, room, Asked, EDITIONS, MOST_REWRITES};

const REPLAYS: usize = 30_000;

/// The numbers of a reading: its refusal's, layout, width, height, item, access.
pub const READ: usize = 14;

/// The numbers of a decoding: its refusal's, count.
pub const DECODED: usize = 2;

/// The reference's answer, with the memory as it must be afterwards.
pub fn expected_replay(asked: &mut Replaying) -> i64 {
    let mut book = match Book::new(asked.first, asked.facts) {
        Ok(book) => book,
        Err(refusal) => return refused(refusal),
    };
    if !fits(asked) {
        return refused(Refusal::Length);
    }
    let mut rooms = asked.outputs.output();
    for turn in 0..asked.editions.length() {
        let (room, others) = rooms.split_at_mut(asked.lengths.elements()[turn] as usize);
        let answer = book.rewrite(asked.editions.elements()[turn], room);
        asked.answers.output()[turn] = number(answer);
        rooms = others;
    }
    asked.card.output().copy_from_slice(book.card());
    let mut read = [0; READ];
    let mut decoded = [0; DECODED];
    match book.read(asked.last) {
        Ok(facts) => {
            tell(facts, &mut read);
            match book.decode(asked.packed.elements(), asked.values.output()) {
                Ok(points) => decoded[1] = points as u64,
                Err(refusal) => decoded[0] = refusal.number().into(),
            }
        }
        Err(refusal) => {
            read[0] = refusal.number().into();
            decoded[0] = read[0];
        }
    }
    asked.read.output().copy_from_slice(&read);
    asked.decoded.output().copy_from_slice(&decoded);
    0
}

/// Whether what is given fits together.
pub fn fits(asked: &Replaying) -> bool {
    let all: u128 = asked
        .lengths
        .elements()
        .iter()
        .map(|&n| u128::from(n))
        .sum();
    asked.card.length() == SIZE
        && asked.lengths.length() == asked.editions.length()
        && asked.answers.length() == asked.editions.length()
        && all == asked.outputs.length() as u128
}

pub fn tell(facts: Facts, read: &mut [u64; READ]) {
    read[1..10].copy_from_slice(&facts.layout.map(u64::from));
    read[10..].copy_from_slice(&[
        facts.width.into(),
        facts.height.into(),
        facts.item,
        facts.access.into(),
    ]);
}

fn number(answer: Result<(), Refusal>) -> u8 {
    answer.map_or_else(Refusal::number, |()| 0)
}

/// Random histories, most of which begin. In the others the first edition or facts
/// are not valid, or the memory does not fit together.
pub fn random(library: &Library, tally: &mut Tally) -> Flow {
    let mut random = Random::new();
    for turn in 0..REPLAYS {
        compare(library, tally, &asked(turn, &mut random))?;
    }
    Flow::Continue(())
}

pub fn compare(library: &Library, tally: &mut Tally, asked: &Replaying) -> Flow {
    let (answer, left) = after(library.replay, asked);
    let (must_be, must_leave) = after(expected_replay, asked);
    tally.compare(answer == must_be && left == must_leave, || {
        format!(
            "replay {:?} at {}, {:?}, {:?}, then at {}: answer {answer}, must be {must_be}; \
             answers {:?}, must be {:?}; read {:?}, must be {:?}; decoded {:?}, must be {:?}",
            asked.facts,
            asked.first,
            asked.editions.elements(),
            asked.lengths.elements(),
            asked.last,
            left.answers.elements(),
            must_leave.answers.elements(),
            left.read.elements(),
            must_leave.read.elements(),
            left.decoded.elements(),
            must_leave.decoded.elements()
        )
    })
}

fn after(replay: Replay, asked: &Replaying) -> (i64, Replaying) {
    let mut asked = asked.clone();
    let answer = replay(&mut asked);
    (answer, asked)
}

fn asked(turn: usize, random: &mut Random) -> Replaying {
    let without_1 = random.one_in(2);
    let layout = any_layout(random);
    let first = if random.one_in(16) {
        EDITIONS[random.below(EDITIONS.len())]
    } else if !without_1 && random.one_in(4) {
        cards::least(layout)
    } else {
        cards::least(layout).max(2 + random.below(3) as u8)
    };
    let access = if first == 1 && !random.one_in(4) {
        0
    } else {
        (random.below(25) / 8) as u8
    };
    let mut facts = Facts {
        access,
        ..cards::facts_in_turn(layout, turn)
    };
    if random.one_in(32) {
        // Of groups this is odd.
        facts.width -= 1;
    }
    let rewrites = (0..random.below(MOST_REWRITES + 1))
        .map(|_| (edition(random, without_1), room(random)))
        .collect();
    let (packed, floats) = line(facts, random);
    let mut replaying = replaying(&Asked {
        first,
        facts,
        rewrites,
        last: edition(random, without_1),
        packed,
        floats,
    });
    let mut lengths = replaying.lengths.elements().to_vec();
    match random.below(24) {
        0 => replaying.card = Guarded::new(random.below(2 * SIZE)),
        1 => replaying.outputs = Guarded::new(replaying.outputs.length() + 1),
        2 => replaying.answers = Guarded::new(replaying.answers.length() + 1),
        3 => lengths.push(0),
        4 => lengths.push(u64::MAX),
        5 => {
            if let Some(length) = lengths.first_mut() {
                *length = length.wrapping_sub(1);
            }
        }
        _ => {}
    }
    replaying.lengths = Guarded::holding(&lengths);
    replaying
}

/// The history with memory that fits together.
pub(super) fn replaying(asked: &Asked) -> Replaying {
    let editions: Vec<u8> = asked.rewrites.iter().map(|&(edition, _)| edition).collect();
    let rooms = asked.rewrites.iter().map(|&(_, room)| room);
    let lengths: Vec<u64> = rooms.clone().map(|room| room as u64).collect();
    Replaying {
        first: asked.first,
        facts: asked.facts,
        layout: Guarded::holding(&asked.facts.layout),
        card: Guarded::new(SIZE),
        outputs: Guarded::new(rooms.sum()),
        answers: Guarded::new(editions.len()),
        editions: Guarded::holding(&editions),
        lengths: Guarded::holding(&lengths),
        last: asked.last,
        packed: Guarded::holding(&asked.packed),
        values: Guarded::new(asked.floats),
        read: Guarded::new(READ),
        decoded: Guarded::new(DECODED),
    }
}
