//! Mistakes that the history of a card of groups shows.

use reference::card::Facts;

use crate::card::{expected_read, expected_rewrite, expected_write, SAMPLING};
use crate::history::replays::expected_replay;
use crate::layouts::{self, is_grouped};
use crate::library::Library;
use crate::lines::expected_decode_line;

use super::super::decode::decodes;
use super::super::history::{accepted, reads, replays, rewrites};
use super::super::{Wrong, REFERENCE};
use super::as_points;

pub const WRONG: &[Wrong] = &[
    rewrites(
        "groups rewritten at 3",
        |card, edition, out| match expected_rewrite(card, edition, out) {
            -8 if edition == 3 => expected_rewrite(card, 4, out),
            answer => answer,
        },
    ),
    rewrites("byte 7 lost by a rewrite", |card, edition, out| {
        accepted(card, edition, out, |_, out| out[SAMPLING] = 0)
    }),
    reads(
        "groups read at 3",
        |card, edition, told| match expected_read(card, edition, told) {
            -8 if edition == 3 => expected_read(card, 4, told),
            answer => answer,
        },
    ),
    reads("groups read as points", |card, edition, told| {
        let answer = expected_read(card, edition, told);
        if answer == 0 {
            told.layout.output()[layouts::SAMPLING] = 0;
        }
        answer
    }),
    decodes(
        "a captured line's groups counted",
        |layout, packed, out| match expected_decode_line(layout, packed, out) {
            points @ 1.. if is_grouped(layout) => points / 2,
            answer => answer,
        },
    ),
    decodes(
        "a captured line of groups as points",
        |layout, packed, out| expected_decode_line(as_points(layout), packed, out),
    ),
    decodes("a captured line of half a group", |layout, packed, out| {
        let rest = match is_grouped(layout) {
            true => packed.len() % 4,
            false => 0,
        };
        expected_decode_line(layout, &packed[..packed.len() - rest], out)
    }),
    (
        "first written at 3 where 4 is asked and 3 can",
        Library {
            card_write: |edition, facts, out| match expected_write(edition.min(3), facts, out) {
                0 => 0,
                _ => expected_write(edition, facts, out),
            },
            ..REFERENCE
        },
    ),
    replays("an odd width first written", |asked| {
        let facts = asked.facts;
        asked.facts.width = facts.width.next_multiple_of(2);
        let answer = expected_replay(asked);
        asked.facts = facts;
        answer
    }),
    replays(
        "9 for an odd width, replaying",
        |asked| match expected_replay(asked) {
            -16 => -9,
            answer => answer,
        },
    ),
    replays("13 before 16, replaying", |asked| {
        let even = Facts {
            width: asked.facts.width.next_multiple_of(2),
            ..asked.facts
        };
        let mut fitting = asked.clone();
        fitting.facts = even;
        match (expected_replay(asked), expected_replay(&mut fitting)) {
            (-16, -13) => -13,
            (answer, _) => answer,
        }
    }),
    replays("11 before 16, replaying", |asked| {
        let mut even = asked.clone();
        even.facts.width = even.facts.width.next_multiple_of(2);
        match (expected_replay(asked), expected_replay(&mut even)) {
            (-16, -11) => -11,
            (answer, _) => answer,
        }
    }),
    replays("the card written before 16 is found", |asked| {
        let answer = expected_replay(asked);
        if answer == -16 {
            asked.card.output().fill(0);
        }
        answer
    }),
    replays("the last reading at 4 as at 3", |asked| {
        let last = asked.last;
        asked.last = if last == 4 { 3 } else { last };
        let answer = expected_replay(asked);
        asked.last = last;
        answer
    }),
    replays("the sampling not told by a replay", |asked| {
        let answer = expected_replay(asked);
        if answer == 0 {
            asked.read.output()[1 + layouts::SAMPLING] = 0;
        }
        answer
    }),
    replays("eight numbers of the layout told", |asked| {
        let answer = expected_replay(asked);
        if answer == 0 {
            asked.read.output()[1 + layouts::SAMPLING..].rotate_left(1);
        }
        answer
    }),
    replays("13 numbers told", |asked| {
        let before = asked.read.elements()[13];
        let answer = expected_replay(asked);
        asked.read.output()[13] = before;
        answer
    }),
    replays("15 numbers told", |asked| {
        let answer = expected_replay(asked);
        if answer == 0 {
            asked.read.output_and_beyond()[14] = 0;
        }
        answer
    }),
    replays("the count of groups, replaying", |asked| {
        let answer = expected_replay(asked);
        if answer == 0 && is_grouped(asked.facts.layout) {
            asked.decoded.output()[1] /= 2;
        }
        answer
    }),
    replays("8 of a group's card as 9", |asked| {
        let answer = expected_replay(asked);
        if answer == 0 && is_grouped(asked.facts.layout) {
            let refused = asked.answers.output().iter_mut();
            refused
                .filter(|number| **number == 8)
                .for_each(|number| *number = 9);
        }
        answer
    }),
];
