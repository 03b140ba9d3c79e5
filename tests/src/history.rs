//! Histories of one card: written, rewritten again and again, and read, and a line
//! decoded by what is read, all by the library, and compared with the paper's book.

use reference::card::Facts;
use reference::history::Book;

use crate::card::cards;
use crate::card::{KNOWN_EDITIONS, SIZE};
use crate::guarded::{Guarded, Outcome};
use crate::layouts::{bytes_a_point, packed_length, points_each};
use crate::library::card::Told;
use crate::library::{Layout, Library};
use crate::part::{part, Part};
use crate::quantization::refused;
use crate::random::Random;
use crate::tally::{Flow, Tally};

pub mod replays;

pub const PARTS: &[Part] = &[
    part("histories in one call", replays::random),
    part("histories, captured lines", captured),
    part("histories, every short one", every_short_one),
    part("histories, random", random),
];

const EDITIONS: [u8; 8] = [0, 1, 2, 3, 4, 5, 6, 255];

/// Those of random histories: most are known.
const MOSTLY_KNOWN: [u8; 12] = [2, 3, 4, 2, 3, 4, 4, 1, 0, 5, 6, 255];

const ROOMS: [usize; 5] = [0, SIZE - 1, SIZE, SIZE + 1, 2 * SIZE];

const HISTORIES: usize = 20_000;
const MOST_REWRITES: usize = 40;

/// A rewrite: its edition and its length of room.
type Rewrite = (u8, usize);

#[derive(Debug)]
struct Asked {
    first: u8,
    facts: Facts,
    rewrites: Vec<Rewrite>,
    last: u8,
    packed: Vec<u8>,
    /// The length of the line of floats.
    floats: usize,
}

/// All that is to be seen: the first writing, each rewrite with the card after it,
/// the last reading, and the decoding by it if it is accepted.
#[derive(PartialEq)]
struct Seen {
    first: Outcome<u8>,
    rewrites: Vec<(Outcome<u8>, Vec<u8>)>,
    last: i64,
    told: Told,
    decoded: Option<Outcome<u32>>,
}

impl Seen {
    /// By the library's own calls. Each rewrite takes the card that the last
    /// accepted one wrote.
    fn by_calls(library: &Library, asked: &Asked) -> Seen {
        let first = Outcome::of(SIZE, |out| {
            (library.card_write)(asked.first, asked.facts, out)
        });
        let mut card = first.output.clone();
        let mut rewrites = Vec::new();
        for &(edition, room) in &asked.rewrites {
            let outcome = Outcome::of(room, |out| (library.card_rewrite)(&mut card, edition, out));
            if outcome.answer == 0 {
                card = Guarded::holding(outcome.output.elements());
            }
            rewrites.push((outcome, card.elements().to_vec()));
        }
        let mut told = Told::new();
        let last = (library.card_read)(&mut card, asked.last, &mut told);
        let decoded = (last == 0).then(|| {
            let layout = told.layout.elements().try_into().expect("nine numbers");
            Outcome::of(asked.floats, |out| {
                (library.decode_line)(layout, &asked.packed, out)
            })
        });
        Seen {
            first,
            rewrites,
            last,
            told,
            decoded,
        }
    }

    /// By the book, which is given facts that are valid at the first edition.
    fn by_the_book(asked: &Asked) -> Seen {
        let mut book = Book::new(asked.first, asked.facts).expect("facts that are valid there");
        let first = Outcome::of(SIZE, |out| {
            out.output().copy_from_slice(book.card());
            0
        });
        let mut rewrites = Vec::new();
        for &(edition, room) in &asked.rewrites {
            let outcome = Outcome::of(room, |out| match book.rewrite(edition, out.output()) {
                Ok(()) => 0,
                Err(refusal) => refused(refusal),
            });
            rewrites.push((outcome, book.card().to_vec()));
        }
        let mut told = Told::new();
        let last = match book.read(asked.last) {
            Ok(facts) => {
                told.store(facts);
                0
            }
            Err(refusal) => refused(refusal),
        };
        let decoded = (last == 0).then(|| {
            Outcome::of(asked.floats, |out| {
                match book.decode(&asked.packed, out.output()) {
                    Ok(points) => points as i64,
                    Err(refusal) => refused(refusal),
                }
            })
        });
        Seen {
            first,
            rewrites,
            last,
            told,
            decoded,
        }
    }

    /// What is unlike the book's, the first of it.
    fn unlike(&self, expected: &Seen) -> String {
        if self.first != expected.first {
            return format!("first writing: {}", self.first.unlike(&expected.first));
        }
        let pairs = self.rewrites.iter().zip(&expected.rewrites);
        if let Some((turn, (rewrite, must_be))) = pairs.enumerate().find(|(_, (a, b))| a != b) {
            return format!("rewrite {turn}: {}", rewrite.0.unlike(&must_be.0));
        }
        match (&self.decoded, &expected.decoded) {
            (Some(decoded), Some(must_be)) if decoded != must_be => {
                format!("decoding: {}", decoded.unlike(must_be))
            }
            _ => format!(
                "last reading: {}, {:?}; must be {}, {:?}",
                self.last,
                self.told.facts.elements(),
                expected.last,
                expected.told.facts.elements()
            ),
        }
    }
}

fn compare(library: &Library, tally: &mut Tally, asked: &Asked) -> Flow {
    let seen = Seen::by_calls(library, asked);
    let expected = Seen::by_the_book(asked);
    tally.compare(seen == expected, || {
        format!("{asked:?}: {}", seen.unlike(&expected))
    })
}

/// Facts that are valid at an edition, if there are such with this layout and
/// access; sizes and items take turns.
fn facts(first: u8, layout: Layout, access: u8, turn: usize) -> Option<Facts> {
    let facts = Facts {
        access,
        ..cards::facts_in_turn(layout, turn)
    };
    Book::new(first, facts).is_ok().then_some(facts)
}

/// Every list of up to two rewrites and every last edition, and every list of three
/// that are each at an edition that is known or refused. Of the layouts that need
/// edition 1, 2, 3 and 4, one each has a turn.
fn every_short_one(library: &Library, tally: &mut Tally) -> Flow {
    let all: Vec<Rewrite> = EDITIONS
        .iter()
        .flat_map(|&edition| ROOMS.map(|room| (edition, room)))
        .collect();
    let some = [
        (1, SIZE),
        (2, SIZE),
        (3, SIZE),
        (4, SIZE),
        (5, SIZE),
        (4, SIZE - 1),
    ];
    let mut random = Random::new();
    let lists = short_lists(&all, 2).chain(short_lists(&some, 3));
    for (turn, rewrites) in lists.enumerate() {
        let layouts = [
            cards::layout([8, 10][turn % 2]),
            cards::layout(12),
            cards::older([8, 10, 12][turn % 3]),
            cards::groups(),
        ];
        for first in KNOWN_EDITIONS {
            for layout in layouts {
                for access in 0..=2 {
                    if let Some(facts) = facts(first, layout, access, turn) {
                        let (packed, floats) = line(facts, &mut random);
                        let asked = Asked {
                            first,
                            facts,
                            rewrites: rewrites.clone(),
                            last: EDITIONS[turn % EDITIONS.len()],
                            packed,
                            floats,
                        };
                        compare(library, tally, &asked)?;
                        let last = 2 + (turn % 3) as u8;
                        compare(library, tally, &Asked { last, ..asked })?;
                    }
                }
            }
        }
    }
    Flow::Continue(())
}

/// Lists of these rewrites, none to as many as asked.
fn short_lists(rewrites: &[Rewrite], most: u32) -> impl Iterator<Item = Vec<Rewrite>> + '_ {
    (0..=most).flat_map(move |length| {
        (0..rewrites.len().pow(length)).map(move |number| {
            (0..length)
                .map(|place| rewrites[number / rewrites.len().pow(place) % rewrites.len()])
                .collect()
        })
    })
}

/// Random histories of up to 40 rewrites. In half of them edition 1 never comes, so
/// that the access can live.
fn random(library: &Library, tally: &mut Tally) -> Flow {
    let mut random = Random::new();
    for turn in 0..HISTORIES {
        let first = KNOWN_EDITIONS[random.below(KNOWN_EDITIONS.len())];
        let layout = any_layout(&mut random);
        let access = random.below(3) as u8;
        let Some(facts) = facts(first, layout, access, turn) else {
            continue;
        };
        let without_1 = random.one_in(2);
        let rewrites = (0..random.below(MOST_REWRITES + 1))
            .map(|_| (edition(&mut random, without_1), room(&mut random)))
            .collect();
        let last = edition(&mut random, without_1);
        let (packed, floats) = line(facts, &mut random);
        let asked = Asked {
            first,
            facts,
            rewrites,
            last,
            packed,
            floats,
        };
        compare(library, tally, &asked)?;
    }
    Flow::Continue(())
}

/// Captured lines of no points, of few, of as many as there may be and of more, with bytes
/// left over, into as many floats as they need and into others: of points and of groups,
/// by single calls and in one.
fn captured(library: &Library, tally: &mut Tally) -> Flow {
    let mut random = Random::new();
    for (turn, layout) in cards::layouts().into_iter().enumerate() {
        let each = points_each(layout);
        let bytes = bytes_a_point(layout);
        for length in [0, 1, 2, 9, 4096 / each - 1, 4096 / each, 4096 / each + 1] {
            for left_over in 0..bytes {
                let packed: Vec<u8> = (0..length * bytes + left_over)
                    .map(|_| random.next() as u8)
                    .collect();
                let needed = 3 * length * each;
                for floats in [needed, needed + 1, needed + 3, needed.saturating_sub(3)] {
                    let asked = Asked {
                        first: 4,
                        facts: cards::facts_in_turn(layout, turn),
                        rewrites: vec![(4, SIZE)],
                        last: 4,
                        packed: packed.clone(),
                        floats,
                    };
                    compare(library, tally, &asked)?;
                    replays::compare(library, tally, &replays::replaying(&asked))?;
                }
            }
        }
    }
    Flow::Continue(())
}

fn edition(random: &mut Random, without_1: bool) -> u8 {
    match MOSTLY_KNOWN[random.below(MOSTLY_KNOWN.len())] {
        1 if without_1 => 2,
        edition => edition,
    }
}

/// A room that is right every second time, at least.
fn room(random: &mut Random) -> usize {
    if random.one_in(2) {
        SIZE
    } else {
        ROOMS[random.below(ROOMS.len())]
    }
}

/// A layout of a card. Every third has groups.
fn any_layout(random: &mut Random) -> Layout {
    let layouts = cards::layouts();
    match random.one_in(3) {
        true => cards::groups(),
        false => layouts[random.below(layouts.len())],
    }
}

/// A line of up to four points or groups, and a length of floats: three a point, but
/// every eighth time another. Every eighth line has bytes left over, half a group's.
fn line(facts: Facts, random: &mut Random) -> (Vec<u8>, usize) {
    let points = points_each(facts.layout) * random.below(5);
    let left_over = if random.one_in(8) {
        points_each(facts.layout)
    } else {
        0
    };
    let packed = (0..packed_length(facts.layout, points) + left_over)
        .map(|_| random.next() as u8)
        .collect();
    let floats = if random.one_in(8) {
        random.below(16)
    } else {
        3 * points
    };
    (packed, floats)
}
