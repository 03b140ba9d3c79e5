//! Mistakes in the access that a card shows, and in the bytes that are looked at
//! for it.

use crate::card::{expected_read, ACCESS, LEAST, WRITTEN};
use crate::guarded::Guarded;
use crate::library::card::Told;
use crate::plain::card::{read, shown, Row, READING};

use super::card_reads::{
    changed, exchanged, reads, rows, ACCESS_ABOVE_2, KNOWN_EDITION, LAST_BYTES, LENGTH,
};
use super::Wrong;

pub const WRONG: &[Wrong] = &[
    // What is shown.
    reads("byte 24 shown at edition 1", |card, edition, told| {
        read(card, edition, told, &READING, |asked| {
            match asked.card[ACCESS] {
                access @ 0..=2 => access,
                _ => 0,
            }
        })
    }),
    reads(
        "an unknown access number shown as open",
        |card, edition, told| {
            read(card, edition, told, &READING, |asked| match asked.edition {
                1 => 0,
                _ => asked.card[ACCESS].min(2),
            })
        },
    ),
    reads(
        "an unknown access number shown as it stands",
        |card, edition, told| {
            read(card, edition, told, &READING, |asked| match asked.edition {
                1 => 0,
                _ => asked.card[ACCESS],
            })
        },
    ),
    reads(
        "an access number's two lowest bits shown",
        |card, edition, told| {
            read(card, edition, told, &READING, |asked| match asked.edition {
                1 => 0,
                _ => asked.card[ACCESS] & 3,
            })
        },
    ),
    reads("later cards all closed", |card, edition, told| {
        read(card, edition, told, &READING, |asked| {
            if asked.card[WRITTEN] > asked.edition {
                0
            } else {
                shown(asked)
            }
        })
    }),
    reads("access shown by edition 2 alone", |card, edition, told| {
        read(card, edition, told, &READING, |asked| match asked.edition {
            2 => shown(asked),
            _ => 0,
        })
    }),
    reads("access shown by edition 3 alone", |card, edition, told| {
        read(card, edition, told, &READING, |asked| match asked.edition {
            3 => shown(asked),
            _ => 0,
        })
    }),
    reads(
        "access from 3 closed at 2, and from 2 at 3",
        |card, edition, told| {
            read(card, edition, told, &READING, |asked| {
                match (asked.card[WRITTEN], asked.edition) {
                    (2, 3) | (3, 2) => 0,
                    _ => shown(asked),
                }
            })
        },
    ),
    reads("an early capture always closed", |card, edition, told| {
        read(card, edition, told, &READING, |asked| {
            match asked.card[LEAST] {
                3 => 0,
                _ => shown(asked),
            }
        })
    }),
    reads("an early capture open", |card, edition, told| {
        read(card, edition, told, &READING, |asked| {
            match asked.card[LEAST] {
                3 => 2,
                _ => shown(asked),
            }
        })
    }),
    reads("every card closed", |card, edition, told| {
        read(card, edition, told, &READING, |_| 0)
    }),
    reads("every card open", |card, edition, told| {
        read(card, edition, told, &READING, |_| 2)
    }),
    reads("closed and open exchanged", |card, edition, told| {
        read(card, edition, told, &READING, |asked| 2 - shown(asked))
    }),
    reads("open shown as community", |card, edition, told| {
        read(card, edition, told, &READING, |asked| shown(asked).min(1))
    }),
    // Refusal 10.
    reads("10 for a card written at 1", |card, edition, told| {
        let row: Row = (10, |asked| {
            asked.edition >= 2 && asked.card[WRITTEN] <= asked.edition && asked.card[ACCESS] > 2
        });
        read(card, edition, told, &exchanged(ACCESS_ABOVE_2, row), shown)
    }),
    reads(
        "10 for a card from the next edition",
        |card, edition, told| {
            let row: Row = (10, |asked| {
                asked.edition >= 2
                    && (2..=asked.edition + 1).contains(&asked.card[WRITTEN])
                    && asked.card[ACCESS] > 2
            });
            read(card, edition, told, &exchanged(ACCESS_ABOVE_2, row), shown)
        },
    ),
    reads("10 for later cards", |card, edition, told| {
        let row: Row = (10, |asked| {
            asked.edition >= 2 && asked.card[WRITTEN] >= 2 && asked.card[ACCESS] > 2
        });
        read(card, edition, told, &exchanged(ACCESS_ABOVE_2, row), shown)
    }),
    reads("10 for later cards at 3", |card, edition, told| {
        let row: Row = (10, |asked| {
            let later = asked.edition == 3 && asked.card[WRITTEN] > 3;
            (later || asked.is_from_2_on()) && asked.card[ACCESS] > 2
        });
        read(card, edition, told, &exchanged(ACCESS_ABOVE_2, row), shown)
    }),
    reads("10 at edition 1", |card, edition, told| {
        let row: Row = (10, |asked| {
            (asked.card[WRITTEN] == 2 || asked.is_from_2_on()) && asked.card[ACCESS] > 2
        });
        read(card, edition, told, &exchanged(ACCESS_ABOVE_2, row), shown)
    }),
    reads("10 for open", |card, edition, told| {
        let row: Row = (10, |asked| asked.is_from_2_on() && asked.card[ACCESS] > 1);
        read(card, edition, told, &exchanged(ACCESS_ABOVE_2, row), shown)
    }),
    reads("10 for numbers above 3 only", |card, edition, told| {
        let row: Row = (10, |asked| asked.is_from_2_on() && asked.card[ACCESS] > 3);
        read(card, edition, told, &exchanged(ACCESS_ABOVE_2, row), shown)
    }),
    reads("10 only from 2 at 2", |card, edition, told| {
        let row: Row = (10, |asked| {
            [asked.card[WRITTEN], asked.edition] == [2, 2] && asked.card[ACCESS] > 2
        });
        read(card, edition, told, &exchanged(ACCESS_ABOVE_2, row), shown)
    }),
    reads("10 only at the writer's edition", |card, edition, told| {
        let row: Row = (10, |asked| {
            asked.is_from_2_on() && asked.card[WRITTEN] == asked.edition && asked.card[ACCESS] > 2
        });
        read(card, edition, told, &exchanged(ACCESS_ABOVE_2, row), shown)
    }),
    reads("10 only for cards from 2", |card, edition, told| {
        let row: Row = (10, |asked| {
            asked.is_from_2_on() && asked.card[WRITTEN] == 2 && asked.card[ACCESS] > 2
        });
        read(card, edition, told, &exchanged(ACCESS_ABOVE_2, row), shown)
    }),
    reads("access 3 known to edition 3", |card, edition, told| {
        let row: Row = (10, |asked| {
            let most = if asked.card[WRITTEN] == 3 { 3 } else { 2 };
            asked.is_from_2_on() && asked.card[ACCESS] > most
        });
        read(card, edition, told, &exchanged(ACCESS_ABOVE_2, row), shown)
    }),
    reads("9 for 10", |card, edition, told| {
        match expected_read(card, edition, told) {
            -10 => -9,
            answer => answer,
        }
    }),
    reads("an access above 2 closed at 2", |card, edition, told| {
        let rows = rows([0, 1, 2, 3, 4, 5, 7]);
        read(card, edition, told, &rows, shown)
    }),
    // Bytes 24 to 31.
    reads(
        "the last bytes of a card from 1 not looked at",
        |card, edition, told| not_looked_at(card, edition, told, ACCESS, (1, None)),
    ),
    reads(
        "the access of a card from 1 shown",
        |card, edition, told| {
            let row: Row = (9, |asked| {
                (asked.is_from_2_on() || asked.card[WRITTEN] == 1)
                    && asked.card[ACCESS + 1..] != [0; 7]
            });
            read(card, edition, told, &exchanged(LAST_BYTES, row), shown)
        },
    ),
    reads(
        "bytes 25 to 31 of a card from 1 not looked at",
        |card, edition, told| not_looked_at(card, edition, told, ACCESS + 1, (1, None)),
    ),
    reads(
        "the last bytes of a card from 1 not looked at at 1",
        |card, edition, told| not_looked_at(card, edition, told, ACCESS, (1, Some(1))),
    ),
    reads(
        "the last bytes of a card from 1 not looked at at 2",
        |card, edition, told| not_looked_at(card, edition, told, ACCESS, (1, Some(2))),
    ),
    reads(
        "bytes 25 to 31 of a card from 2 not looked at",
        |card, edition, told| not_looked_at(card, edition, told, ACCESS + 1, (2, None)),
    ),
    reads(
        "bytes 25 to 31 of a card from 3 not looked at",
        |card, edition, told| not_looked_at(card, edition, told, ACCESS + 1, (3, None)),
    ),
    reads(
        "bytes 25 to 31 of a card from 2 not looked at at 3",
        |card, edition, told| not_looked_at(card, edition, told, ACCESS + 1, (2, Some(3))),
    ),
    reads("byte 31 not looked at", |card, edition, told| {
        changed(card, edition, told, |card| card[31] = 0)
    }),
    reads("byte 28 not looked at", |card, edition, told| {
        changed(card, edition, told, |card| card[28] = 0)
    }),
    reads(
        "bytes 25 to 31 of a card from 2 looked at at 1",
        |card, edition, told| {
            let row: Row = (9, |asked| match (asked.card[WRITTEN], asked.edition) {
                (1, _) => asked.card[ACCESS..] != [0; 8],
                (2, 1) => asked.card[ACCESS + 1..] != [0; 7],
                _ => asked.is_from_2_on() && asked.card[ACCESS + 1..] != [0; 7],
            });
            read(card, edition, told, &exchanged(LAST_BYTES, row), shown)
        },
    ),
    reads(
        "bytes 25 to 31 of later cards looked at at 2",
        |card, edition, told| {
            let row: Row = (9, |asked| match (asked.card[WRITTEN], asked.edition) {
                (1, _) => asked.card[ACCESS..] != [0; 8],
                (2.., 2) => asked.card[ACCESS + 1..] != [0; 7],
                _ => asked.is_from_2_on() && asked.card[ACCESS + 1..] != [0; 7],
            });
            read(card, edition, told, &exchanged(LAST_BYTES, row), shown)
        },
    ),
    reads(
        "bytes 25 to 31 of later cards looked at at 3",
        |card, edition, told| {
            let row: Row = (9, |asked| match (asked.card[WRITTEN], asked.edition) {
                (1, _) => asked.card[ACCESS..] != [0; 8],
                (2.., 3) => asked.card[ACCESS + 1..] != [0; 7],
                _ => asked.is_from_2_on() && asked.card[ACCESS + 1..] != [0; 7],
            });
            read(card, edition, told, &exchanged(LAST_BYTES, row), shown)
        },
    ),
    reads(
        "byte 31 of later cards looked at at 1",
        |card, edition, told| {
            match expected_read(card, edition, told) {
                0 if edition == 1 && card.elements()[WRITTEN] > 2 && card.elements()[31] != 0 => {
                    // Nothing is stored by a refusal.
                    *told = Told::new();
                    -9
                }
                answer => answer,
            }
        },
    ),
    reads("no rows but 1 and 7", |card, edition, told| {
        read(card, edition, told, &rows([LENGTH, KNOWN_EDITION]), shown)
    }),
];

/// Reads without a look at the bytes from a place on, of cards from one edition, at one
/// edition or at all.
fn not_looked_at(
    card: &mut Guarded<u8>,
    edition: u8,
    told: &mut Told,
    place: usize,
    (from, at): (u8, Option<u8>),
) -> i64 {
    changed(card, edition, told, |card| {
        if card[WRITTEN] == from && at.is_none_or(|at| edition == at) {
            card[place..].fill(0);
        }
    })
}
