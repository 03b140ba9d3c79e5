//! Mistakes in rewriting cards.

use reference::card::{self, Facts};

use crate::card::{expected_read, expected_rewrite, expected_write, ACCESS, LEAST, SIZE, WRITTEN};
use crate::guarded::Guarded;
use crate::library::card::{CardRewrite, Told};
use crate::library::Library;
use crate::plain::card::{rewritten, shown, READING};
use crate::quantization::refused;

use super::card_reads::rows;
use super::{Wrong, REFERENCE};

pub const WRONG: &[Wrong] = &[
    // What is stored.
    rewrites("bytes copied", |card, edition, out| {
        let bytes = card.elements().to_vec();
        stored(card, edition, out, |room| room.copy_from_slice(&bytes))
    }),
    rewrites("bytes copied but for byte 1", |card, edition, out| {
        let bytes = card.elements().to_vec();
        stored(card, edition, out, |room| {
            room.copy_from_slice(&bytes);
            room[WRITTEN] = edition;
        })
    }),
    rewrites("access kept through edition 1", |card, edition, out| {
        rewritten(card, edition, out, &READING, |asked| {
            match asked.card[ACCESS] {
                access @ 0..=2 => access,
                _ => 0,
            }
        })
    }),
    rewrites("an unknown access kept", |card, edition, out| {
        rewritten(card, edition, out, &READING, |asked| match asked.edition {
            1 => 0,
            _ => asked.card[ACCESS],
        })
    }),
    rewrites("an unknown access opened", |card, edition, out| {
        rewritten(card, edition, out, &READING, |asked| match asked.edition {
            1 => 0,
            _ => asked.card[ACCESS].min(2),
        })
    }),
    rewrites("everything closed", |card, edition, out| {
        rewritten(card, edition, out, &READING, |_| 0)
    }),
    rewrites("later cards closed", |card, edition, out| {
        rewritten(card, edition, out, &READING, |asked| {
            if asked.card[WRITTEN] > asked.edition {
                0
            } else {
                shown(asked)
            }
        })
    }),
    rewrites("everything closed by edition 3", |card, edition, out| {
        rewritten(card, edition, out, &READING, |asked| match asked.edition {
            3 => 0,
            _ => shown(asked),
        })
    }),
    rewrites("cards from 3 closed by edition 2", |card, edition, out| {
        rewritten(card, edition, out, &READING, |asked| {
            match (asked.card[WRITTEN], asked.edition) {
                (3, 2) => 0,
                _ => shown(asked),
            }
        })
    }),
    rewrites("byte 0 set to the edition", |card, edition, out| {
        stored(card, edition, out, |room| room[LEAST] = edition)
    }),
    rewrites("byte 1 kept", |card, edition, out| {
        let written = card.elements().get(WRITTEN).copied();
        stored(card, edition, out, |room| {
            room[WRITTEN] = written.unwrap_or(0);
        })
    }),
    rewrites("byte 1 never lowered", |card, edition, out| {
        let written = card.elements().get(WRITTEN).copied();
        stored(card, edition, out, |room| {
            room[WRITTEN] = edition.max(written.unwrap_or(0));
        })
    }),
    rewrites("bytes 25 to 31 kept", |card, edition, out| {
        let bytes = card.elements().to_vec();
        stored(card, edition, out, |room| {
            room[ACCESS + 1..].copy_from_slice(&bytes[ACCESS + 1..]);
        })
    }),
    rewrites(
        "a card from 1 opened to the community",
        |card, edition, out| {
            let from_1 = card.elements().get(WRITTEN) == Some(&1);
            stored(card, edition, out, |room| {
                if from_1 && edition >= 2 {
                    room[ACCESS] = 1;
                }
            })
        },
    ),
    rewrites("nothing stored", |card, edition, out| {
        expected_rewrite(card, edition, &mut out.clone())
    }),
    // Editions.
    rewrites(
        "read at 2 and written at the edition",
        |card, edition, out| match (edition, card::read(card.elements(), 2)) {
            (1, Ok(facts)) => expected_write(edition, facts, out),
            _ => expected_rewrite(card, edition, out),
        },
    ),
    rewrites(
        "read at 2, closed and written at 1",
        |card, edition, out| match (edition, card::read(card.elements(), 2)) {
            (1, Ok(facts)) => expected_write(edition, Facts { access: 0, ..facts }, out),
            (1, Err(refusal)) => refused(refusal),
            _ => expected_rewrite(card, edition, out),
        },
    ),
    rewrites(
        "12 bits rewritten at 1",
        |card, edition, out| match expected_rewrite(card, edition, out) {
            -8 if edition == 1 => expected_rewrite(card, 2, out),
            answer => answer,
        },
    ),
    rewrites("11 for 8", |card, edition, out| {
        match expected_rewrite(card, edition, out) {
            -8 if edition < 4 => -11,
            answer => answer,
        }
    }),
    rewrites("edition 3 rewrites as 2", |card, edition, out| {
        let edition = if edition == 3 { 2 } else { edition };
        expected_rewrite(card, edition, out)
    }),
    rewrites("edition 4 rewrites as 3", |card, edition, out| {
        let edition = if edition == 4 { 3 } else { edition };
        expected_rewrite(card, edition, out)
    }),
    rewrites("edition 5 rewrites as 4", |card, edition, out| {
        let edition = if edition == 5 { 4 } else { edition };
        expected_rewrite(card, edition, out)
    }),
    rewrites("edition 3 rewrites nothing", |card, edition, out| {
        let edition = if edition == 3 { 5 } else { edition };
        expected_rewrite(card, edition, out)
    }),
    rewrites("edition 4 rewrites nothing", |card, edition, out| {
        let edition = if edition == 4 { 5 } else { edition };
        expected_rewrite(card, edition, out)
    }),
    rewrites(
        "early captures rewritten at 2",
        |card, edition, out| match expected_rewrite(card, edition, out) {
            -8 if edition == 2 => expected_rewrite(card, 3, out),
            answer => answer,
        },
    ),
    rewrites(
        "early captures rewritten in full range at 2",
        |card, edition, out| {
            let mut copy = card.clone();
            match copy.output() {
                [least @ 3, _, _, _, range @ 3, depth, ..] if edition == 2 => {
                    *least = if *depth == 12 { 2 } else { 1 };
                    *range = 2;
                    expected_rewrite(&mut copy, edition, out)
                }
                _ => expected_rewrite(card, edition, out),
            }
        },
    ),
    rewrites("edition 0 rewrites as 1", |card, edition, out| {
        expected_rewrite(card, edition.max(1), out)
    }),
    rewrites("an unknown access accepted at 2", |card, edition, out| {
        rewritten(card, edition, out, &rows([0, 1, 2, 3, 4, 5, 7]), shown)
    }),
    rewrites("last bytes not looked at", |card, edition, out| {
        rewritten(card, edition, out, &rows([0, 1, 2, 3, 4, 5, 6]), shown)
    }),
    rewrites("64 bytes rewritten", |card, edition, out| {
        let length = match card.length() {
            64 => SIZE,
            length => length,
        };
        let mut cut = Guarded::holding(&card.elements()[..length]);
        expected_rewrite(&mut cut, edition, out)
    }),
    // Rooms and memory.
    rewrites(
        "longer room accepted",
        |card, edition, out| match expected_rewrite(card, edition, out) {
            -13 if out.length() > SIZE => {
                let mut room = Guarded::new(SIZE);
                let answer = expected_rewrite(card, edition, &mut room);
                out.output()[..SIZE].copy_from_slice(room.elements());
                answer
            }
            answer => answer,
        },
    ),
    rewrites(
        "room of 64 bytes filled twice",
        |card, edition, out| match expected_rewrite(card, edition, out) {
            -13 if out.length() == 2 * SIZE => {
                let mut room = Guarded::new(SIZE);
                let answer = expected_rewrite(card, edition, &mut room);
                out.output().copy_from_slice(&room.elements().repeat(2));
                answer
            }
            answer => answer,
        },
    ),
    rewrites(
        "shorter room filled, rewriting",
        |card, edition, out| match expected_rewrite(card, edition, out) {
            -13 if out.length() < SIZE => {
                let mut room = Guarded::new(SIZE);
                let answer = expected_rewrite(card, edition, &mut room);
                let length = out.length();
                out.output().copy_from_slice(&room.elements()[..length]);
                answer
            }
            answer => answer,
        },
    ),
    rewrites(
        "no room accepted, rewriting",
        |card, edition, out| match expected_rewrite(card, edition, out) {
            -13 if out.length() == 0 => 0,
            answer => answer,
        },
    ),
    rewrites("room filled on a refusal", |card, edition, out| {
        let answer = expected_rewrite(card, edition, out);
        if answer < 0 && out.length() == card.length() {
            out.output().copy_from_slice(card.elements());
        }
        answer
    }),
    rewrites("room cleared before 13", |card, edition, out| {
        let answer = expected_rewrite(card, edition, out);
        if answer == -13 {
            out.output().fill(0);
        }
        answer
    }),
    rewrites("the card rewritten where it lies", |card, edition, out| {
        let answer = expected_rewrite(card, edition, out);
        if answer == 0 {
            card.output().copy_from_slice(out.elements());
        }
        answer
    }),
    rewrites("33 bytes stored, rewriting", |card, edition, out| {
        let answer = expected_rewrite(card, edition, out);
        if answer == 0 {
            out.output_and_beyond()[SIZE] = 0;
        }
        answer
    }),
    // The order of refusals.
    rewrites("13 before all", |card, edition, out| match out.length() {
        SIZE => expected_rewrite(card, edition, out),
        _ => -13,
    }),
    rewrites("13 before 7, 8, 9 and 10", |card, edition, out| {
        match (card.length(), out.length()) {
            (SIZE, SIZE) => expected_rewrite(card, edition, out),
            (SIZE, _) => -13,
            _ => expected_rewrite(card, edition, out),
        }
    }),
    rewrites("13 before 8", |card, edition, out| {
        match expected_rewrite(card, edition, out) {
            -8 if out.length() != SIZE => -13,
            answer => answer,
        }
    }),
    rewrites(
        "13 before 10",
        |card, edition, out| match expected_rewrite(card, edition, out) {
            -10 if out.length() != SIZE => -13,
            answer => answer,
        },
    ),
    rewrites("13 before 9 of bytes 24 to 31", |card, edition, out| {
        let rows = rows([0, 1, 2, 3, 4, 5, 6]);
        match rewritten(card, edition, &mut out.clone(), &rows, shown) {
            -13 => -13,
            _ => expected_rewrite(card, edition, out),
        }
    }),
    rewrites("9 before 8, rewriting", |card, edition, out| {
        rewritten(card, edition, out, &rows([0, 1, 2, 4, 3, 5, 6, 7]), shown)
    }),
    rewrites("7 before 1, rewriting", |card, edition, out| {
        rewritten(card, edition, out, &rows([1, 0, 2, 3, 4, 5, 6, 7]), shown)
    }),
    rewrites(
        "every rewriting refused",
        |card, edition, _| match expected_read(card, edition, &mut Told::new()) {
            0 => -13,
            refusal => refusal,
        },
    ),
];

pub const fn rewrites(mistake: &'static str, card_rewrite: CardRewrite) -> Wrong {
    let library = Library {
        card_rewrite,
        ..REFERENCE
    };
    (mistake, library)
}

/// Rewrites and then changes what is stored.
fn stored(
    card: &mut Guarded<u8>,
    edition: u8,
    out: &mut Guarded<u8>,
    change: impl FnOnce(&mut [u8]),
) -> i64 {
    let answer = expected_rewrite(card, edition, out);
    if answer == 0 {
        change(out.output());
    }
    answer
}
