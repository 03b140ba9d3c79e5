//! Cards rewritten: into rooms of several lengths, and again and again.

use reference::card::Facts;

use crate::guarded::Outcome;
use crate::library::Library;
use crate::random::Random;
use crate::tally::{Flow, Tally};

use super::cards;
use super::{
    compare_read, compare_rewrite, unknown_editions, Card, Rewriting, ACCESS, KNOWN_EDITIONS,
    LEAST, ROOMS, SAMPLING, SIZE, WIDTH,
};

const LISTS: usize = 4000;

/// Every room at every edition, with cards that are accepted and some that other
/// refusals speak of.
pub fn rooms(library: &Library, tally: &mut Tally) -> Flow {
    for card in cards::chosen() {
        for changed in [
            card,
            with(card, LEAST, 0),
            with(card, ACCESS, 3),
            with(card, SAMPLING, card[SAMPLING] ^ 1),
            with(card, WIDTH, card[WIDTH] | 1),
        ] {
            for room in ROOMS {
                for edition in KNOWN_EDITIONS {
                    compare_rewrite(library, tally, &changed, edition, room)?;
                }
            }
        }
        for (edition, room) in unknown_editions().zip(ROOMS.into_iter().cycle()) {
            compare_rewrite(library, tally, &card, edition, room)?;
        }
        for room in 0..=3 * SIZE {
            for edition in KNOWN_EDITIONS {
                compare_rewrite(library, tally, &card, edition, room)?;
            }
        }
    }
    Flow::Continue(())
}

/// A card written, then rewritten at a list of editions and into rooms, each time
/// from what the library itself has written last; then read. Facts, least edition
/// and access are those of the first card, but closed once edition 1 has had it.
pub fn lists(library: &Library, tally: &mut Tally) -> Flow {
    let mut random = Random::new();
    for turn in 0..LISTS {
        let layouts = cards::layouts();
        let facts = Facts {
            access: (turn / layouts.len() % 3) as u8,
            ..cards::facts_in_turn(layouts[turn % layouts.len()], turn)
        };
        let first = cards::least(facts.layout).max(2);
        let written = Outcome::of(SIZE, |out| (library.card_write)(first, facts, out));
        let mut card = written.output.elements().to_vec();
        let mut access = facts.access;
        for _ in 0..random.below(8) {
            let edition = [2, 2, 3, 3, 4, 4, 4, 1, 0, 5][random.below(10)];
            let room = ROOMS[random.below(12).saturating_sub(7)];
            compare_rewrite(library, tally, &card, edition, room)?;
            let rewriting = Rewriting::of(library.card_rewrite, &card, edition, room);
            if rewriting.outcome.answer == 0 {
                card = rewriting.outcome.output.elements().to_vec();
                access = if edition == 1 { 0 } else { access };
            }
        }
        for edition in KNOWN_EDITIONS {
            compare_read(library, tally, &card, edition)?;
        }
        let last = Facts { access, ..facts };
        let same = card[LEAST] == cards::least(facts.layout)
            && reference::card::read(&card, 4) == Ok(last);
        tally.compare(same, || {
            format!("rewrites of {facts:?}: {card:?}, must tell {last:?}")
        })?;
    }
    Flow::Continue(())
}

fn with(mut card: Card, place: usize, byte: u8) -> Card {
    card[place] = byte;
    card
}
