//! Mistakes in telling the bytes of a field: the place of the first, the answer, and
//! refusals.

use reference::refusal::Refusal;

use crate::field::expected_field_bytes;
use crate::layouts::{bytes_a_point, LEGACY, PRIMARIES, RANGE};
use crate::plain::field::{held, told};
use crate::plain::lines::place;
use crate::quantization::refused;

use super::field::tells;
use super::unpack::only_overlaps;
use super::Wrong;

pub const WRONG: &[Wrong] = &[
    // The place of the first.
    tells(
        "the first as a bit of its byte",
        |layout, channel, first| {
            told(layout, channel, first, |layout, channel| {
                let [_, count] = held(layout, channel);
                [place(layout, channel, 0) % 8, count]
            })
        },
    ),
    tells("the first counted in bits", |layout, channel, first| {
        told(layout, channel, first, |layout, channel| {
            let [_, count] = held(layout, channel);
            [place(layout, channel, 0), count]
        })
    }),
    tells(
        "the first counted from the point's end",
        |layout, channel, first| {
            told(layout, channel, first, |layout, channel| {
                let [first, count] = held(layout, channel);
                [bytes_a_point(layout) - first - count, count]
            })
        },
    ),
    tells("the last told for the first", |layout, channel, first| {
        told(layout, channel, first, |layout, channel| {
            let [first, count] = held(layout, channel);
            [first + count - 1, count]
        })
    }),
    tells("the first not told", |layout, channel, first| {
        expected_field_bytes(layout, channel, &mut first.clone())
    }),
    tells(
        "the first not told where it is 0",
        |layout, channel, first| {
            let mut told = first.clone();
            let answer = expected_field_bytes(layout, channel, &mut told);
            if told.elements() != [0] {
                *first = told;
            }
            answer
        },
    ),
    tells("a second place told after it", |layout, channel, first| {
        let answer = expected_field_bytes(layout, channel, first);
        if answer > 0 {
            first.output_and_beyond()[1] = 0;
        }
        answer
    }),
    // The answer.
    tells(
        "the answer and the first exchanged",
        |layout, channel, first| {
            let count = expected_field_bytes(layout, channel, first);
            match count {
                0.. => {
                    let place = first.elements()[0];
                    first.output().fill(count as u8);
                    place.into()
                }
                refusal => refusal,
            }
        },
    ),
    tells("0 answered for every field", |layout, channel, first| {
        expected_field_bytes(layout, channel, first).min(0)
    }),
    tells(
        "the place after the last answered",
        |layout, channel, first| match expected_field_bytes(layout, channel, first) {
            count @ 0.. => count + i64::from(first.elements()[0]),
            refusal => refusal,
        },
    ),
    // Refusal 9.
    tells("channel 3 told as 0", |layout, channel, first| {
        expected_field_bytes(layout, if channel == 3 { 0 } else { channel }, first)
    }),
    tells("channels cut to two bits", |layout, channel, first| {
        expected_field_bytes(layout, channel & 3, first)
    }),
    tells(
        "channel 0 refused",
        |layout, channel, first| match channel {
            0 => refused(Refusal::Outside),
            _ => expected_field_bytes(layout, channel, first),
        },
    ),
    tells(
        "13 for a bad channel, telling",
        |layout, channel, first| match expected_field_bytes(layout, channel, first) {
            -9 if channel > 2 => refused(Refusal::Length),
            answer => answer,
        },
    ),
    tells(
        "primaries not looked at, telling",
        |layout, channel, first| {
            let mut changed = layout;
            changed[PRIMARIES] = 1;
            expected_field_bytes(changed, channel, first)
        },
    ),
    tells(
        "range 3 refused, telling",
        |layout, channel, first| match layout[RANGE] {
            LEGACY => refused(Refusal::Outside),
            _ => expected_field_bytes(layout, channel, first),
        },
    ),
    tells(
        "overlapping fields told",
        |layout, channel, first| match expected_field_bytes(layout, channel, first) {
            -9 if only_overlaps(layout) && channel < 3 => {
                let [place, count] = held(layout, channel.into());
                first.output().fill(place as u8);
                count as i64
            }
            answer => answer,
        },
    ),
    tells("everything refused", |_, _, _| refused(Refusal::Outside)),
    // Memory on a refusal.
    tells("the first told on a refusal", |layout, channel, first| {
        let answer = expected_field_bytes(layout, channel, first);
        if answer < 0 {
            first.output().fill(0);
        }
        answer
    }),
    tells(
        "the first told before a bad channel is found",
        |layout, channel, first| {
            let answer = expected_field_bytes(layout, channel, first);
            if answer < 0 && channel > 2 {
                expected_field_bytes(layout, 0, first);
            }
            answer
        },
    ),
];
