//! Mistakes that the history of a card shows.

use reference::card;
use reference::refusal::Refusal;

use crate::card::{expected_read, expected_rewrite, expected_write, ACCESS, LEAST, WRITTEN};
use crate::guarded::Guarded;
use crate::history::replays::expected_replay;
use crate::layouts::OFFSETS;
use crate::library::card::{CardRead, CardRewrite};
use crate::library::history::Replay;
use crate::library::Library;
use crate::lines::expected_decode_line;
use crate::quantization::refused;

use super::points::older_as_full;
use super::{Wrong, REFERENCE};

pub const WRONG: &[Wrong] = &[
    rewrites("all rewrites refused", |_, _, _| refused(Refusal::Length)),
    rewrites("a rewriter that copies bytes", |card, edition, out| {
        accepted(card, edition, out, |card, out| out.copy_from_slice(card))
    }),
    rewrites("rewrites that close everything", |card, edition, out| {
        accepted(card, edition, out, |_, out| out[ACCESS] = 0)
    }),
    rewrites("access kept through edition 1", |card, edition, out| {
        accepted(card, edition, out, |card, out| out[ACCESS] = card[ACCESS])
    }),
    rewrites("byte 0 set to the edition", |card, edition, out| {
        accepted(card, edition, out, |_, out| out[LEAST] = edition)
    }),
    rewrites("the first writer's edition kept", |card, edition, out| {
        accepted(card, edition, out, |card, out| out[WRITTEN] = card[WRITTEN])
    }),
    rewrites("edition 3 rewrites as 2", |card, edition, out| {
        let edition = if edition == 3 { 2 } else { edition };
        expected_rewrite(card, edition, out)
    }),
    rewrites("edition 4 rewrites as 3", |card, edition, out| {
        let edition = if edition == 4 { 3 } else { edition };
        expected_rewrite(card, edition, out)
    }),
    rewrites("edition 5 rewrites as 4", |card, edition, out| {
        let edition = if edition == 5 { 4 } else { edition };
        expected_rewrite(card, edition, out)
    }),
    rewrites("edition 3 not known", |card, edition, out| {
        let edition = if edition == 3 { 5 } else { edition };
        expected_rewrite(card, edition, out)
    }),
    rewrites("edition 4 not known", |card, edition, out| {
        let edition = if edition == 4 { 5 } else { edition };
        expected_rewrite(card, edition, out)
    }),
    rewrites("access lost at edition 3", |card, edition, out| {
        accepted(card, edition, out, |_, out| {
            if edition == 3 {
                out[ACCESS] = 0;
            }
        })
    }),
    rewrites("access lost at edition 4", |card, edition, out| {
        accepted(card, edition, out, |_, out| {
            if edition == 4 {
                out[ACCESS] = 0;
            }
        })
    }),
    rewrites(
        "early captures rewritten at 2",
        |card, edition, out| match expected_rewrite(card, edition, out) {
            -8 if edition == 2 => expected_rewrite(card, 3, out),
            answer => answer,
        },
    ),
    rewrites("edition 255 rewrites as 1", |card, edition, out| {
        let edition = if edition == 255 { 1 } else { edition };
        expected_rewrite(card, edition, out)
    }),
    rewrites("13 before 8", |card, edition, out| {
        match expected_rewrite(card, edition, out) {
            -8 if out.length() != card.length() => refused(Refusal::Length),
            answer => answer,
        }
    }),
    rewrites("a refused rewrite stores", |card, edition, out| {
        let answer = expected_rewrite(card, edition, out);
        if answer != 0 && out.length() > 0 {
            out.output()[0] = 0;
        }
        answer
    }),
    rewrites("the card is written over", |card, edition, out| {
        let answer = expected_rewrite(card, edition, out);
        if answer == 0 {
            card.output()[ACCESS] = 0;
        } else if edition == 1 {
            card.output()[ACCESS] = 2;
        }
        answer
    }),
    reads("byte 24 shown at edition 1", |card, edition, told| {
        let access = card.elements()[ACCESS];
        let answer = expected_read(card, edition, told);
        if answer == 0 {
            told.facts.output()[3] = access.into();
        }
        answer
    }),
    reads("reading at edition 4 as at 3", |card, edition, told| {
        let edition = if edition == 4 { 3 } else { edition };
        expected_read(card, edition, told)
    }),
    reads("reading at edition 5 as at 4", |card, edition, told| {
        let edition = if edition == 5 { 4 } else { edition };
        expected_read(card, edition, told)
    }),
    reads("access hidden at edition 4", |card, edition, told| {
        let answer = expected_read(card, edition, told);
        if answer == 0 && edition == 4 {
            told.facts.output()[3] = 0;
        }
        answer
    }),
    reads("access hidden at edition 3", |card, edition, told| {
        let answer = expected_read(card, edition, told);
        if answer == 0 && edition == 3 {
            told.facts.output()[3] = 0;
        }
        answer
    }),
    reads(
        "early captures read at 2",
        |card, edition, told| match expected_read(card, edition, told) {
            -8 if edition == 2 => expected_read(card, 3, told),
            answer => answer,
        },
    ),
    replays("the first card kept", |asked| {
        let answer = expected_replay(asked);
        if answer == 0 {
            let _ = card::write(asked.first, asked.facts, asked.card.output());
        }
        answer
    }),
    replays("read at the first edition", |asked| {
        let last = asked.last;
        asked.last = asked.first;
        let answer = expected_replay(asked);
        asked.last = last;
        answer
    }),
    replays("the last reading at 3 as at 2", |asked| {
        let last = asked.last;
        asked.last = if last == 3 { 2 } else { last };
        let answer = expected_replay(asked);
        asked.last = last;
        answer
    }),
    replays("13 for 8, rewriting early captures", |asked| {
        let answer = expected_replay(asked);
        if asked.facts.layout[2] == 3 {
            let refused = asked.answers.output().iter_mut();
            refused
                .filter(|number| **number == 8)
                .for_each(|number| *number = 13);
        }
        answer
    }),
    replays("the last answer not stored", |asked| {
        let before = asked.answers.elements().last().copied();
        let answer = expected_replay(asked);
        if let (Some(last), Some(before)) = (asked.answers.output().last_mut(), before) {
            *last = before;
        }
        answer
    }),
    replays("stored before 13 is found", |asked| {
        let answer = expected_replay(asked);
        if answer == -13 {
            let _ = card::write(asked.first, asked.facts, asked.card.output());
        }
        answer
    }),
    replays("a refused reading's line decoded", |asked| {
        let answer = expected_replay(asked);
        if answer == 0 && asked.read.elements()[0] != 0 {
            let _ = expected_decode_line(
                asked.facts.layout,
                asked.packed.elements(),
                &mut asked.values,
            );
        }
        answer
    }),
    (
        "decoded with the first two channels exchanged",
        Library {
            decode_line: |layout, packed, values| {
                let mut exchanged = layout;
                exchanged.swap(OFFSETS, OFFSETS + 1);
                expected_decode_line(exchanged, packed, values)
            },
            ..REFERENCE
        },
    ),
    (
        "early captures decoded in full range",
        Library {
            decode_line: |layout, packed, values| {
                expected_decode_line(older_as_full(layout), packed, values)
            },
            ..REFERENCE
        },
    ),
    (
        "a count of three bytes a point",
        Library {
            decode_line: |layout, packed, values| match expected_decode_line(layout, packed, values)
            {
                1.. => packed.len() as i64 / 3,
                answer => answer,
            },
            ..REFERENCE
        },
    ),
    (
        "first written at 2 whatever the edition",
        Library {
            card_write: |_, facts, out| expected_write(2, facts, out),
            ..REFERENCE
        },
    ),
    (
        "first written at 2 where 3 is asked and 2 can",
        Library {
            card_write: |edition, facts, out| match expected_write(edition.min(2), facts, out) {
                0 => 0,
                _ => expected_write(edition, facts, out),
            },
            ..REFERENCE
        },
    ),
];

pub const fn rewrites(mistake: &'static str, card_rewrite: CardRewrite) -> Wrong {
    (
        mistake,
        Library {
            card_rewrite,
            ..REFERENCE
        },
    )
}

pub const fn reads(mistake: &'static str, card_read: CardRead) -> Wrong {
    (
        mistake,
        Library {
            card_read,
            ..REFERENCE
        },
    )
}

pub const fn replays(mistake: &'static str, replay: Replay) -> Wrong {
    (
        mistake,
        Library {
            replay,
            ..REFERENCE
        },
    )
}

/// A rewrite whose output is changed once it is accepted.
pub fn accepted(
    card: &mut Guarded<u8>,
    edition: u8,
    out: &mut Guarded<u8>,
    change: impl FnOnce(&[u8], &mut [u8]),
) -> i64 {
    let answer = expected_rewrite(card, edition, out);
    if answer == 0 {
        change(card.elements(), out.output());
    }
    answer
}
