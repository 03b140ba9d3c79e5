//! Mistakes in which card is found, and where.

use reference::card::{self, Facts};
use reference::refusal::Refusal;

use crate::card::{ITEM, LEAST, SIZE};
use crate::guarded::Guarded;
use crate::library::card::StackFind;
use crate::library::Library;
use crate::quantization::refused;
use crate::stack::expected_find;

use super::{Wrong, REFERENCE};

/// What a card tells or is refused by.
type Read = Result<Facts, Refusal>;

pub const WRONG: &[Wrong] = &[
    // Which card.
    finds(
        "the search stops at a refused card",
        |stack, edition, item| {
            among(stack, edition, item, |cards| {
                cards
                    .iter()
                    .take_while(|card| card.is_ok())
                    .position(|card| has(card, item))
            })
        },
    ),
    finds(
        "a refused card's number answered",
        |stack, edition, item| {
            let refusal = stack
                .elements()
                .chunks(SIZE)
                .map(|card| card::read(card, edition))
                .take_while(|card| !has(card, item))
                .find_map(|card| card.err());
            match (expected_find(stack, edition, item), refusal) {
                (0.., Some(refusal)) => refused(refusal),
                (answer, _) => answer,
            }
        },
    ),
    finds("the last match", |stack, edition, item| {
        among(stack, edition, item, |cards| {
            cards.iter().rposition(|card| has(card, item))
        })
    }),
    finds("the second match", |stack, edition, item| {
        among(stack, edition, item, |cards| {
            let mut found = (0..cards.len()).filter(|&index| has(&cards[index], item));
            let first = found.next();
            found.next().or(first)
        })
    }),
    finds("two matches refused", |stack, edition, item| {
        among(stack, edition, item, |cards| {
            let mut found = (0..cards.len()).filter(|&index| has(&cards[index], item));
            let first = found.next();
            match found.next() {
                Some(_) => None,
                None => first,
            }
        })
    }),
    finds("refused cards found", |stack, edition, item| {
        by_bytes(stack, edition, item, |_, _| true)
    }),
    finds("cards of 12 bits found at 1", |stack, edition, item| {
        by_bytes(stack, edition, item, |card, edition| {
            card::read(card, edition.max(2)).is_ok()
        })
    }),
    finds("cards of 12 bits never found", |stack, edition, item| {
        by_bytes(stack, edition, item, |card, edition| {
            card[LEAST] != 2 && card::read(card, edition).is_ok()
        })
    }),
    finds("early captures found at 2", |stack, edition, item| {
        by_bytes(stack, edition, item, |card, edition| {
            let edition = if edition == 2 { 3 } else { edition };
            card::read(card, edition).is_ok()
        })
    }),
    finds("early captures never found", |stack, edition, item| {
        by_bytes(stack, edition, item, |card, edition| {
            card[LEAST] != 3 && card::read(card, edition).is_ok()
        })
    }),
    finds(
        "only cards that every edition reads",
        |stack, edition, item| {
            by_bytes(stack, edition, item, |card, _| {
                (1..=4).all(|edition| card::read(card, edition).is_ok())
            })
        },
    ),
    finds("only open cards", |stack, edition, item| {
        by_bytes(stack, edition, item, |card, edition| {
            card::read(card, edition).is_ok_and(|facts| edition == 1 || facts.access == 2)
        })
    }),
    finds(
        "cards of later editions passed over",
        |stack, edition, item| {
            by_bytes(stack, edition, item, |card, edition| {
                card[1] <= edition && card::read(card, edition).is_ok()
            })
        },
    ),
    finds("the last card not looked at", |stack, edition, item| {
        among(stack, edition, item, |cards| {
            let (_, cards) = cards.split_last()?;
            cards.iter().position(|card| has(card, item))
        })
    }),
    finds("the first card not looked at", |stack, edition, item| {
        among(stack, edition, item, |cards| {
            (1..cards.len()).find(|&index| has(&cards[index], item))
        })
    }),
    finds(
        "the last card of a full stack not looked at",
        |stack, edition, item| match expected_find(stack, edition, item) {
            1023 => -15,
            answer => answer,
        },
    ),
    // Which item.
    finds(
        "items compared by their lowest half",
        |stack, edition, item| {
            among(stack, edition, item, |cards| {
                cards
                    .iter()
                    .position(|card| card.is_ok_and(|facts| facts.item as u32 == item as u32))
            })
        },
    ),
    finds("items compared by 63 bits", |stack, edition, item| {
        among(stack, edition, item, |cards| {
            cards
                .iter()
                .position(|card| card.is_ok_and(|facts| facts.item << 1 == item << 1))
        })
    }),
    finds(
        "the first card that is not before the item",
        |stack, edition, item| {
            among(stack, edition, item, |cards| {
                cards
                    .iter()
                    .position(|card| card.is_ok_and(|facts| facts.item >= item))
            })
        },
    ),
    // What is answered.
    finds(
        "counted from 1",
        |stack, edition, item| match expected_find(stack, edition, item) {
            index @ 0.. => index + 1,
            refusal => refusal,
        },
    ),
    finds(
        "the place in bytes",
        |stack, edition, item| match expected_find(stack, edition, item) {
            index @ 0.. => index * SIZE as i64,
            refusal => refusal,
        },
    ),
    finds(
        "the index cut to 8 bits",
        |stack, edition, item| match expected_find(stack, edition, item) {
            index @ 0.. => index % 256,
            refusal => refusal,
        },
    ),
    finds("refused cards not counted", |stack, edition, item| {
        among(stack, edition, item, |cards| {
            cards
                .iter()
                .filter(|card| card.is_ok())
                .position(|card| has(card, item))
        })
    }),
    finds(
        "the number of cards for 15",
        |stack, edition, item| match expected_find(stack, edition, item) {
            -15 => (stack.length() / SIZE) as i64,
            answer => answer,
        },
    ),
    finds("0 for 15", |stack, edition, item| {
        expected_find(stack, edition, item).max(-14) % 14
    }),
];

pub const fn finds(mistake: &'static str, stack_find: StackFind) -> Wrong {
    let library = Library {
        stack_find,
        ..REFERENCE
    };
    (mistake, library)
}

fn has(card: &Read, item: u64) -> bool {
    card.is_ok_and(|facts| facts.item == item)
}

/// Chooses among the cards as they are read, if 1 and 7 do not apply.
fn among(
    stack: &mut Guarded<u8>,
    edition: u8,
    item: u64,
    choose: impl FnOnce(&[Read]) -> Option<usize>,
) -> i64 {
    match expected_find(stack, edition, item) {
        refusal @ (-1 | -7) => refusal,
        _ => {
            let cards: Vec<Read> = stack
                .elements()
                .chunks(SIZE)
                .map(|card| card::read(card, edition))
                .collect();
            choose(&cards).map_or(-15, |index| index as i64)
        }
    }
}

/// The first card whose bytes hold the item and that is taken for readable.
fn by_bytes(
    stack: &mut Guarded<u8>,
    edition: u8,
    item: u64,
    is_read: fn(&[u8], u8) -> bool,
) -> i64 {
    match expected_find(stack, edition, item) {
        refusal @ (-1 | -7) => refusal,
        _ => stack
            .elements()
            .chunks(SIZE)
            .position(|card| card[ITEM..][..8] == item.to_le_bytes() && is_read(card, edition))
            .map_or(-15, |index| index as i64),
    }
}
