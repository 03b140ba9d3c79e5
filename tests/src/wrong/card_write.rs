//! Mistakes in the bytes of a card that is written.

use reference::card::Facts;

use crate::card::{expected_write, ACCESS, ITEM, LEAST, WRITTEN};
use crate::guarded::Guarded;
use crate::layouts::{DEPTH, LEGACY, RANGE};
use crate::library::card::CardWrite;
use crate::library::Library;
use crate::plain::card::{least, written, WRITING};

use super::{Wrong, REFERENCE};

pub const WRONG: &[Wrong] = &[
    // Bytes 0 and 1.
    writes(
        "byte 0 set to the writer's edition",
        |edition, facts, out| written(edition, facts, out, &WRITING, |edition, _| edition),
    ),
    writes("byte 0 always 1", |edition, facts, out| {
        written(edition, facts, out, &WRITING, |_, _| 1)
    }),
    writes("byte 0 raised by the access", |edition, facts, out| {
        written(edition, facts, out, &WRITING, |edition, facts| {
            if facts.access > 0 {
                2
            } else {
                least(edition, facts)
            }
        })
    }),
    writes("byte 0 raised by 10 bits", |edition, facts, out| {
        written(edition, facts, out, &WRITING, |edition, facts| {
            if edition == 2 && facts.layout[DEPTH] == 10 {
                2
            } else {
                least(edition, facts)
            }
        })
    }),
    writes("byte 0 of 3 only at 12 bits", |edition, facts, out| {
        written(edition, facts, out, &WRITING, |edition, facts| {
            if facts.layout[RANGE] == LEGACY && facts.layout[DEPTH] != 12 {
                1
            } else {
                least(edition, facts)
            }
        })
    }),
    writes(
        "byte 0 of 2 for early captures of 12 bits",
        |edition, facts, out| {
            written(edition, facts, out, &WRITING, |edition, facts| {
                if facts.layout[RANGE] == LEGACY && facts.layout[DEPTH] == 12 {
                    2
                } else {
                    least(edition, facts)
                }
            })
        },
    ),
    writes("byte 0 never above 2", |edition, facts, out| {
        written(edition, facts, out, &WRITING, |edition, facts| {
            least(edition, facts).min(2)
        })
    }),
    writes("byte 0 of 3 in full range too", |edition, facts, out| {
        written(edition, facts, out, &WRITING, |edition, facts| {
            match (edition, facts.layout[RANGE]) {
                (3, 2) => 3,
                _ => least(edition, facts),
            }
        })
    }),
    writes("byte 1 set to byte 0", |edition, facts, out| {
        stored(edition, facts, out, |card| card[WRITTEN] = card[LEAST])
    }),
    writes("byte 1 always 2", |edition, facts, out| {
        stored(edition, facts, out, |card| card[WRITTEN] = 2)
    }),
    // Other bytes.
    writes(
        "width and height exchanged, writing",
        |edition, facts, out| stored(edition, facts, out, |card| card[12..16].rotate_left(2)),
    ),
    writes("big-endian sides", |edition, facts, out| {
        stored(edition, facts, out, |card| {
            card.swap(12, 13);
            card.swap(14, 15);
        })
    }),
    writes("big-endian items, writing", |edition, facts, out| {
        stored(edition, facts, out, |card| card[ITEM..ACCESS].reverse())
    }),
    writes("items cut to 32 bits, writing", |edition, facts, out| {
        stored(edition, facts, out, |card| card[ITEM + 4..ACCESS].fill(0))
    }),
    writes("offsets one byte too early", |edition, facts, out| {
        stored(edition, facts, out, |card| card[7..11].rotate_left(1))
    }),
    writes("the access not stored", |edition, facts, out| {
        stored(edition, facts, out, |card| card[ACCESS] = 0)
    }),
    writes("the access not stored at 3", |edition, facts, out| {
        stored(edition, facts, out, |card| {
            if edition == 3 {
                card[ACCESS] = 0;
            }
        })
    }),
    writes(
        "the older full range stored as full",
        |edition, facts, out| stored(edition, facts, out, |card| card[4] = card[4].min(2)),
    ),
    writes("community stored for open", |edition, facts, out| {
        stored(edition, facts, out, |card| {
            card[ACCESS] = card[ACCESS].min(1)
        })
    }),
    writes(
        "zeros of a card left as they were",
        |edition, facts, out| {
            let before = out.clone();
            let answer = expected_write(edition, facts, out);
            for (byte, before) in out.output().iter_mut().zip(before.elements()) {
                if *byte == 0 {
                    *byte = *before;
                }
            }
            answer
        },
    ),
    writes("bytes 25 to 31 left as they were", |edition, facts, out| {
        let before = out.clone();
        let answer = expected_write(edition, facts, out);
        if answer == 0 {
            out.output()[ACCESS + 1..].copy_from_slice(&before.elements()[ACCESS + 1..]);
        }
        answer
    }),
];

pub const fn writes(mistake: &'static str, card_write: CardWrite) -> Wrong {
    let library = Library {
        card_write,
        ..REFERENCE
    };
    (mistake, library)
}

/// Writes and then changes what is stored.
pub fn stored(
    edition: u8,
    facts: Facts,
    out: &mut Guarded<u8>,
    change: impl FnOnce(&mut [u8]),
) -> i64 {
    let answer = expected_write(edition, facts, out);
    if answer == 0 {
        change(out.output());
    }
    answer
}
