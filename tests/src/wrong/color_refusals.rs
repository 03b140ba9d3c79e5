//! Mistakes in the refusals of a line of colors.

use reference::refusal::Refusal;

use crate::clamped::counted;
use crate::color::{converted, expected_convert, DEPTH};
use crate::quantization::refused;

use super::converts::converts;
use super::ends::{refusing, within_the_ends};
use super::points::together;
use super::Wrong;

pub const WRONG: &[Wrong] = PAIRS.as_flattened();

const PAIRS: &[[Wrong; 2]] = &[
    // Refusal 9.
    converts(
        "primaries 0 taken for 1",
        |direction, [primaries, depth, range_in, range_out], codes, out| {
            let conversion = [primaries.max(1), depth, range_in, range_out];
            expected_convert(direction, conversion, codes, out)
        },
    ),
    converts(
        "primaries 5 taken for 4",
        |direction, [primaries, depth, range_in, range_out], codes, out| {
            let primaries = if primaries == 5 { 4 } else { primaries };
            let conversion = [primaries, depth, range_in, range_out];
            expected_convert(direction, conversion, codes, out)
        },
    ),
    converts(
        "the given range not tested",
        |direction, [primaries, depth, range_in, range_out], codes, out| {
            let range_in = if let 1..=3 = range_in { range_in } else { 2 };
            let conversion = [primaries, depth, range_in, range_out];
            expected_convert(direction, conversion, codes, out)
        },
    ),
    converts(
        "the made range not tested",
        |direction, [primaries, depth, range_in, range_out], codes, out| {
            let range_out = if let 1..=3 = range_out { range_out } else { 2 };
            let conversion = [primaries, depth, range_in, range_out];
            expected_convert(direction, conversion, codes, out)
        },
    ),
    converts(
        "range 4 taken for 3, given",
        |direction, [primaries, depth, range_in, range_out], codes, out| {
            let range_in = if range_in == 4 { 3 } else { range_in };
            let conversion = [primaries, depth, range_in, range_out];
            expected_convert(direction, conversion, codes, out)
        },
    ),
    converts(
        "range 3 refused, given",
        |direction, conversion, codes, out| match conversion {
            [_, _, 3, _] => refused(Refusal::Outside),
            _ => expected_convert(direction, conversion, codes, out),
        },
    ),
    converts(
        "range 3 refused, made",
        |direction, conversion, codes, out| match conversion {
            [_, _, _, 3] => refused(Refusal::Outside),
            _ => expected_convert(direction, conversion, codes, out),
        },
    ),
    converts(
        "range 3 beside another refused",
        |direction, conversion, codes, out| match conversion {
            [_, _, 3, 1 | 2] | [_, _, 1 | 2, 3] => refused(Refusal::Outside),
            _ => expected_convert(direction, conversion, codes, out),
        },
    ),
    converts(
        "given codes over 4092 refused",
        |direction, conversion, codes, out| match conversion {
            [_, 12, 3, _] if codes.elements().iter().any(|&code| code > 4092) => {
                match expected_convert(direction, conversion, codes, &mut out.clone()) {
                    0.. => refused(Refusal::CodeTooHigh),
                    refusal => refusal,
                }
            }
            _ => expected_convert(direction, conversion, codes, out),
        },
    ),
    converts(
        "depth 9 taken for 8",
        |direction, [primaries, depth, range_in, range_out], codes, out| {
            let depth = if depth == 9 { 8 } else { depth };
            let conversion = [primaries, depth, range_in, range_out];
            expected_convert(direction, conversion, codes, out)
        },
    ),
    converts(
        "depth 16 taken for 12",
        |direction, [primaries, depth, range_in, range_out], codes, out| {
            let depth = if depth == 16 { 12 } else { depth };
            let conversion = [primaries, depth, range_in, range_out];
            expected_convert(direction, conversion, codes, out)
        },
    ),
    converts(
        "two ranges outside accepted together",
        |direction, conversion, codes, out| match conversion {
            [primaries, depth, 0, 4] => {
                expected_convert(direction, [primaries, depth, 1, 2], codes, out)
            }
            _ => expected_convert(direction, conversion, codes, out),
        },
    ),
    // Refusal 13.
    converts(
        "4,097 points converted",
        |direction, conversion, codes, out| match expected_convert(
            direction, conversion, codes, out,
        ) {
            -13 if codes.length() == 3 * 4097 && out.length() == 3 * 4097 => {
                let given = codes.elements().chunks(3 * 4096);
                let pieces = given
                    .zip(out.made.output().chunks_mut(3 * 4096))
                    .map(|(given, made)| converted(direction, conversion, given, made));
                together(pieces, &mut out.cuts)
            }
            answer => answer,
        },
    ),
    converts(
        "4,096 points refused",
        |direction, conversion, codes, out| match codes.length() {
            12_288 => match expected_convert(direction, conversion, codes, &mut out.clone()) {
                0.. => refused(Refusal::Length),
                refusal => refusal,
            },
            _ => expected_convert(direction, conversion, codes, out),
        },
    ),
    converts(
        "a too long output accepted",
        |direction, conversion, codes, out| {
            let length = codes.length().min(out.length());
            let made = &mut out.made.output()[..length];
            let counts = converted(direction, conversion, codes.elements(), made);
            counted(counts, &mut out.cuts)
        },
    ),
    converts(
        "an output too short filled",
        |direction, conversion, codes, out| {
            let length = codes.length().min(out.length());
            let codes = &codes.elements()[..length];
            let counts = converted(direction, conversion, codes, out.output());
            counted(counts, &mut out.cuts)
        },
    ),
    converts(
        "part of a point passed over",
        |direction, conversion, codes, out| {
            let [given, made] = [codes.length(), out.length()].map(|codes| codes / 3 * 3);
            let codes = &codes.elements()[..given];
            let made = &mut out.made.output()[..made];
            let counts = converted(direction, conversion, codes, made);
            counted(counts, &mut out.cuts)
        },
    ),
    converts(
        "an empty line refused",
        |direction, conversion, codes, out| match expected_convert(
            direction,
            conversion,
            codes,
            &mut out.clone(),
        ) {
            0 => refused(Refusal::Length),
            _ => expected_convert(direction, conversion, codes, out),
        },
    ),
    // Refusal 14.
    converts(
        "14 found after the first store",
        |direction, conversion, codes, out| match expected_convert(
            direction, conversion, codes, out,
        ) {
            -14 => {
                let given = codes.elements().chunks(3);
                let pieces = given
                    .zip(out.made.output().chunks_mut(3))
                    .map(|(given, made)| converted(direction, conversion, given, made));
                together(pieces, &mut out.cuts)
            }
            answer => answer,
        },
    ),
    converts(
        "codes cut to the depth",
        |direction, conversion, codes, out| match expected_convert(
            direction, conversion, codes, out,
        ) {
            -14 => {
                let greatest = (1 << conversion[DEPTH]) - 1;
                let mut cut = codes.clone();
                cut.output().iter_mut().for_each(|code| *code &= greatest);
                expected_convert(direction, conversion, &mut cut, out)
            }
            answer => answer,
        },
    ),
    converts(
        "2^n accepted as a code",
        |direction, conversion, codes, out| match expected_convert(
            direction, conversion, codes, out,
        ) {
            -14 => {
                let above = 1 << conversion[DEPTH];
                let mut cut = codes.clone();
                for code in cut.output().iter_mut().filter(|code| **code == above) {
                    *code -= 1;
                }
                expected_convert(direction, conversion, &mut cut, out)
            }
            answer => answer,
        },
    ),
    converts(
        "codes of 12 bits pass",
        |direction, conversion, codes, out| match expected_convert(
            direction, conversion, codes, out,
        ) {
            -14 if codes.elements().iter().all(|&code| code < 4096) => {
                let greatest = (1 << conversion[DEPTH]) - 1;
                let mut cut = codes.clone();
                let codes = cut.output().iter_mut();
                codes.for_each(|code| *code = (*code).min(greatest));
                expected_convert(direction, conversion, &mut cut, out)
            }
            answer => answer,
        },
    ),
    converts(
        "the last code not looked at",
        |direction, conversion, codes, out| {
            let mut codes = codes.clone();
            if let Some(last) = codes.output().last_mut() {
                *last &= 255;
            }
            expected_convert(direction, conversion, &mut codes, out)
        },
    ),
    converts(
        "codes under narrow black refused",
        |direction, conversion, codes, out| match conversion {
            [_, _, 1, _] if codes.elements().contains(&0) => {
                match expected_convert(direction, conversion, codes, &mut out.clone()) {
                    0.. => refused(Refusal::CodeTooHigh),
                    answer => answer,
                }
            }
            _ => expected_convert(direction, conversion, codes, out),
        },
    ),
    converts(
        "narrow codes beyond the ends refused",
        |direction, conversion, codes, out| {
            let [_, depth, range_in, _] = conversion;
            let beyond = |&code: &u16| within_the_ends(range_in, depth, code) != code;
            refusing(codes.elements().iter().any(beyond), out, |out| {
                expected_convert(direction, conversion, &mut codes.clone(), out)
            })
        },
    ),
    // The order of refusals.
    converts(
        "13 before 9",
        |direction, conversion, codes, out| match expected_convert(
            direction, conversion, codes, out,
        ) {
            -9 if codes.length() != out.length() => refused(Refusal::Length),
            answer => answer,
        },
    ),
    converts(
        "14 before 9",
        |direction, conversion, codes, out| match codes.elements().iter().any(|&code| code >= 4096)
        {
            true if codes.length() == out.length() => refused(Refusal::CodeTooHigh),
            _ => expected_convert(direction, conversion, codes, out),
        },
    ),
    converts(
        "14 before 13",
        |direction, conversion, codes, out| match expected_convert(
            direction, conversion, codes, out,
        ) {
            -13 if codes
                .elements()
                .iter()
                .any(|code| code >> conversion[DEPTH] != 0) =>
            {
                refused(Refusal::CodeTooHigh)
            }
            answer => answer,
        },
    ),
    converts(
        "the output cleared on a refusal",
        |direction, conversion, codes, out| {
            let count = expected_convert(direction, conversion, codes, out);
            if count < 0 {
                out.output().fill(0);
            }
            count
        },
    ),
    converts("everything refused", |_, _, _, _| refused(Refusal::Outside)),
];
