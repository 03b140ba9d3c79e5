//! Mistakes where groups are refused: in single points, in fields and in descriptors.

use reference::lines;
use reference::refusal::Refusal;

use crate::clamped::counted;
use crate::descriptor::{expected_read, expected_write};
use crate::field::{expected_field_bytes, expected_field_code};
use crate::layouts::{group, is_grouped, OFFSETS, OWN, SAMPLING};
use crate::library::Layout;
use crate::lines::{expected_decode_point, expected_encode_point};
use crate::quantization::refused;

use super::super::decode::decodes_points;
use super::super::descriptor::{reads, writes};
use super::super::encode::encodes_points;
use super::super::field::{takes, tells};
use super::super::Wrong;
use super::as_points;

pub const POINTS: &[Wrong] = &[
    decodes_points("a group's first point decoded", |layout, bytes, out| {
        let mut values = [0; 6];
        match lines::decode_line(layout, bytes, &mut values) {
            Ok(2) if is_grouped(layout) => {
                out.output().copy_from_slice(&values[..3]);
                1
            }
            _ => expected_decode_point(layout, bytes, out),
        }
    }),
    decodes_points("a group decoded as a point", |layout, bytes, out| {
        expected_decode_point(as_points(layout), bytes, out)
    }),
    decodes_points(
        "13 for a single point of a group, decoding",
        |layout, bytes, out| of_a_group(layout, expected_decode_point(layout, bytes, out), -13),
    ),
    decodes_points(
        "16 for a single point of a group, decoding",
        |layout, bytes, out| of_a_group(layout, expected_decode_point(layout, bytes, out), -16),
    ),
    decodes_points(
        "13 before 9 for half a group, decoding",
        |layout, bytes, out| match bytes.len() {
            2 => of_a_group(layout, expected_decode_point(layout, bytes, out), -13),
            _ => expected_decode_point(layout, bytes, out),
        },
    ),
    decodes_points(
        "the sampling not looked at, decoding a point",
        |layout, bytes, out| expected_decode_point(with_own(layout), bytes, out),
    ),
    encodes_points("a group of one point encoded", |layout, values, out| {
        let bits = [values, values].concat();
        let bits: Vec<u32> = bits.iter().map(|value| value.to_bits()).collect();
        match is_grouped(layout) {
            true => {
                let counts = lines::encode_line(layout, &bits, out.made.output());
                counted(counts, &mut out.cuts).min(1)
            }
            false => expected_encode_point(layout, values, out),
        }
    }),
    encodes_points("a group encoded as a point", |layout, values, out| {
        expected_encode_point(as_points(layout), values, out)
    }),
    encodes_points(
        "13 for a single point of a group, encoding",
        |layout, values, out| of_a_group(layout, expected_encode_point(layout, values, out), -13),
    ),
    encodes_points(
        "16 for a single point of a group, encoding",
        |layout, values, out| of_a_group(layout, expected_encode_point(layout, values, out), -16),
    ),
    encodes_points(
        "12 before 9 for a single point of a group",
        |layout, values, out| match values.iter().any(|value| value.is_nan()) {
            true => of_a_group(layout, expected_encode_point(layout, values, out), -12),
            false => expected_encode_point(layout, values, out),
        },
    ),
    encodes_points(
        "the sampling not looked at, encoding a point",
        |layout, values, out| expected_encode_point(with_own(layout), values, out),
    ),
];

pub const FIELDS: &[Wrong] = &[
    tells("a group's fields told", |layout, channel, first| {
        expected_field_bytes(as_points(layout), channel, first)
    }),
    tells("13 for a group's fields", |layout, channel, first| {
        of_a_group(layout, expected_field_bytes(layout, channel, first), -13)
    }),
    tells("16 for a group's fields", |layout, channel, first| {
        of_a_group(layout, expected_field_bytes(layout, channel, first), -16)
    }),
    tells(
        "the sampling not looked at, telling",
        |layout, channel, first| expected_field_bytes(with_own(layout), channel, first),
    ),
    tells(
        "the first told before a group is found",
        |layout, channel, first| {
            let answer = expected_field_bytes(layout, channel, first);
            if is_grouped(layout) {
                expected_field_bytes(as_points(layout), channel, first);
            }
            answer
        },
    ),
    takes("a group's codes taken", |layout, channel, bytes| {
        expected_field_code(as_points(layout), channel, bytes)
    }),
    takes("13 for a group's codes", |layout, channel, bytes| {
        of_a_group(layout, expected_field_code(layout, channel, bytes), -13)
    }),
    takes(
        "13 before 9 for a group's codes",
        |layout, channel, bytes| match bytes.len() {
            1 => expected_field_code(layout, channel, bytes),
            _ => of_a_group(layout, expected_field_code(layout, channel, bytes), -13),
        },
    ),
    takes(
        "the sampling not looked at, taking",
        |layout, channel, bytes| expected_field_code(with_own(layout), channel, bytes),
    ),
];

pub const DESCRIPTORS: &[Wrong] = &[
    writes("a group's descriptor written", |layout, out| {
        expected_write(as_points(layout), out)
    }),
    writes("16 for a group's descriptor", |layout, out| {
        of_a_group(layout, expected_write(layout, out), -16)
    }),
    writes(
        "13 before 9 for a group's descriptor",
        |layout, out| match out.length() {
            76 => expected_write(layout, out),
            _ => of_a_group(layout, expected_write(layout, out), -13),
        },
    ),
    writes("the sampling not looked at, writing", |layout, out| {
        expected_write(with_own(layout), out)
    }),
    writes(
        "a sampling above 1 not looked at, writing",
        |mut layout, out| {
            if layout[SAMPLING] > 1 {
                layout[SAMPLING] = OWN;
            }
            expected_write(layout, out)
        },
    ),
    reads("the sampling not stored", |bytes, out| {
        let before = out.elements()[SAMPLING];
        let answer = expected_read(bytes, out);
        out.output()[SAMPLING] = before;
        answer
    }),
    reads("groups read from a descriptor", |bytes, out| {
        let answer = expected_read(bytes, out);
        if let (0, [2, primaries, range, 8, 4, ..]) = (answer, out.elements()) {
            let group = group(*primaries, *range);
            out.output().copy_from_slice(&group);
        }
        answer
    }),
    reads("a tenth number stored", |bytes, out| {
        let answer = expected_read(bytes, out);
        if answer == 0 {
            out.output_and_beyond()[SAMPLING + 1] = 0;
        }
        answer
    }),
];

/// Another refusal for the one of a group.
fn of_a_group(layout: Layout, answer: i64, wrong: i64) -> i64 {
    match answer == refused(Refusal::Outside) && is_grouped(layout) {
        true => wrong,
        false => answer,
    }
}

/// Points whose fields have their own places are their own, whatever the sampling says.
fn with_own(mut layout: Layout) -> Layout {
    if layout[OFFSETS..SAMPLING] != [0; 3] {
        layout[SAMPLING] = OWN;
    }
    layout
}
