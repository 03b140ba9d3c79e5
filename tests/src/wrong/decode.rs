//! Mistakes in decoding a line or a point.

use reference::lines;
use reference::refusal::Refusal;

use crate::guarded::Guarded;
use crate::layouts::{
    bytes_a_point, elements_in, packed_length, DEPTH, LEGACY, OFFSETS, PRIMARIES, RANGE,
};
use crate::library::{Layout, Library};
use crate::lines::{answer, expected_decode_line, expected_decode_point};
use crate::plain::lines::{decoded, Place};
use crate::plain::quantization::line;
use crate::quantization::refused;

use super::ends::{line_within_the_ends, refusing_points};
use super::points::{
    keeping_from, older_as_full, place_in_neighbours_bytes, place_in_turned_bytes,
    place_in_two_bytes, with_places,
};
use super::{Wrong, REFERENCE};

pub const WRONG: &[Wrong] = &[
    // Which points.
    decodes("only the first point decoded", |layout, packed, out| {
        keeping_from(3, out, |out| expected_decode_line(layout, packed, out))
    }),
    decodes(
        "the first point decoded, the rest zeros",
        |layout, packed, out| {
            let count = expected_decode_line(layout, packed, out);
            if count > 1 {
                out.output()[3..].fill(0);
            }
            count
        },
    ),
    decodes("point 4,096 left out", |layout, packed, out| {
        keeping_from(3 * 4095, out, |out| {
            expected_decode_line(layout, packed, out)
        })
    }),
    // Which bits.
    decodes(
        "a field's offset taken for its neighbour's, decoding",
        |layout, packed, out| {
            let mut exchanged = layout;
            exchanged.swap(OFFSETS + 1, OFFSETS + 2);
            expected_decode_line(exchanged, packed, out)
        },
    ),
    decodes("big-endian points decoded", |layout, packed, out| {
        let mut turned = packed.to_vec();
        if let 3..=8 = bytes_a_point(layout) {
            let points = turned.chunks_mut(bytes_a_point(layout));
            points.for_each(<[u8]>::reverse);
        }
        expected_decode_line(layout, &turned, out)
    }),
    decodes(
        "a field read from its neighbour's bytes, decoding",
        |layout, packed, out| decoded_from(layout, packed, out, place_in_neighbours_bytes),
    ),
    decodes(
        "the bytes of a field in the other order, decoding",
        |layout, packed, out| decoded_from(layout, packed, out, place_in_turned_bytes),
    ),
    decodes(
        "a field's second byte read for its third, decoding",
        |layout, packed, out| decoded_from(layout, packed, out, place_in_two_bytes),
    ),
    decodes_points(
        "a field read from its neighbour's bytes, decoding a point",
        |layout, bytes, out| {
            let moved = with_places(layout, bytes, place_in_neighbours_bytes);
            expected_decode_point(layout, &moved, out)
        },
    ),
    // Values.
    decodes("a constant float", |layout, packed, out| {
        let count = expected_decode_line(layout, packed, out);
        if count > 0 {
            out.output().fill(0.5f32.to_bits());
        }
        count
    }),
    decodes(
        "all channels on the scale of channel 0, decoding",
        |layout, packed, out| {
            let mut without_differences = layout;
            if let [2, ..] = layout {
                without_differences[0] = 1;
            }
            expected_decode_line(without_differences, packed, out)
        },
    ),
    decodes("the other range", |layout, packed, out| {
        let mut other = layout;
        if let 1 | 2 = layout[RANGE] {
            other[RANGE] = 3 - layout[RANGE];
        }
        expected_decode_line(other, packed, out)
    }),
    decodes(
        "full range for the older, decoding",
        |layout, packed, out| expected_decode_line(older_as_full(layout), packed, out),
    ),
    decodes(
        "older codes over 4092 decoded as it",
        |layout, packed, out| {
            let count = expected_decode_line(layout, packed, out);
            if count > 0 && (layout[RANGE], layout[DEPTH]) == (LEGACY, 12) {
                let [brightness, difference] = [4092.0f32, 2044.0].map(|code| code / 4096.0);
                let tops = match layout {
                    [1, ..] => [brightness; 3],
                    _ => [brightness, difference, difference],
                };
                for (bits, top) in out.output().iter_mut().zip(tops.iter().cycle()) {
                    *bits = f32::from_bits(*bits).min(*top).to_bits();
                }
            }
            count
        },
    ),
    decodes(
        "narrow codes beyond the ends decoded as the nearer",
        |layout, packed, out| {
            expected_decode_line(layout, &line_within_the_ends(layout, packed), out)
        },
    ),
    decodes(
        "narrow codes beyond the ends refused, decoding",
        |layout, packed, out| refusing_points(layout, packed, out, expected_decode_line),
    ),
    decodes_points(
        "narrow codes beyond the ends decoded as the nearer, a point",
        |layout, bytes, out| {
            expected_decode_point(layout, &line_within_the_ends(layout, bytes), out)
        },
    ),
    decodes_points(
        "narrow codes beyond the ends refused, decoding a point",
        |layout, bytes, out| refusing_points(layout, bytes, out, expected_decode_point),
    ),
    decodes_points(
        "full range for the older, decoding a point",
        |layout, bytes, out| expected_decode_point(older_as_full(layout), bytes, out),
    ),
    decodes("a product with the reciprocal", |layout, packed, out| {
        decoded(layout, packed, out, line, |p, q| p * (1.0 / q))
    }),
    decodes("128 as the base at every depth", |layout, packed, out| {
        decoded(
            layout,
            packed,
            out,
            |scale| match line(scale) {
                (span, base) if base == 1 << (scale.depth - 1) => (span, 128),
                usual => usual,
            },
            |p, q| p / q,
        )
    }),
    decodes("zero as minus zero", |layout, packed, out| {
        let count = expected_decode_line(layout, packed, out);
        if count > 0 {
            let zeros = out.output().iter_mut().filter(|bits| **bits == 0);
            zeros.for_each(|bits| *bits = (-0.0f32).to_bits());
        }
        count
    }),
    decodes_points(
        "a point's values in another order, decoding",
        |layout, bytes, out| {
            let answer = expected_decode_point(layout, bytes, out);
            if answer == 1 {
                out.output().reverse();
            }
            answer
        },
    ),
    // Counts.
    decodes(
        "a count of its own invention",
        |layout, packed, out| match expected_decode_line(layout, packed, out) {
            0.. => out.length() as i64,
            refusal => refusal,
        },
    ),
    decodes(
        "an empty line refused, decoding",
        |layout, packed, out| match expected_decode_line(layout, packed, out) {
            0 => refused(Refusal::Length),
            answer => answer,
        },
    ),
    decodes_points("0 answered for a point, decoding", |layout, bytes, out| {
        expected_decode_point(layout, bytes, out).min(0)
    }),
    // Refusal 13.
    decodes("4,097 points decoded", |layout, packed, out| {
        let [most, one_more] = [4096, 4097].map(|points| packed_length(layout, points));
        match expected_decode_line(layout, packed, out) {
            -13 if packed.len() == one_more && out.length() == 3 * 4097 => {
                let (values, last) = out.output().split_at_mut(3 * 4096);
                answer(lines::decode_line(layout, &packed[..most], values))
                    + answer(lines::decode_line(layout, &packed[most..], last))
            }
            answer => answer,
        }
    }),
    decodes(
        "a last part of a point passed over, decoding",
        |layout, packed, out| {
            let rest = match bytes_a_point(layout) {
                0 => 0,
                size => packed.len() % size,
            };
            expected_decode_line(layout, &packed[..packed.len() - rest], out)
        },
    ),
    decodes(
        "a too short output filled, decoding",
        |layout, packed, out| match expected_decode_line(layout, packed, out) {
            -13 => {
                let mut longer = Guarded::new(elements_in(layout, packed.len()));
                let count = expected_decode_line(layout, packed, &mut longer);
                let length = longer.length().min(out.length());
                out.output()[..length].copy_from_slice(&longer.output()[..length]);
                count
            }
            answer => answer,
        },
    ),
    decodes_points("the first of two points decoded", |layout, bytes, out| {
        match expected_decode_point(layout, bytes, out) {
            -13 if bytes.len() == 2 * bytes_a_point(layout) => {
                expected_decode_point(layout, &bytes[..bytes.len() / 2], out)
            }
            answer => answer,
        }
    }),
    decodes_points(
        "no bytes taken for a point",
        |layout, bytes, out| match expected_decode_point(layout, bytes, out) {
            -13 if bytes.is_empty() => 0,
            answer => answer,
        },
    ),
    // Memory on a refusal.
    decodes(
        "cleared before 13 is found",
        |layout, packed, out| match expected_decode_line(layout, packed, out) {
            -13 => {
                out.output().fill(0);
                refused(Refusal::Length)
            }
            answer => answer,
        },
    ),
    decodes(
        "not-a-numbers in the output made quiet",
        |layout, packed, out| match expected_decode_line(layout, packed, out) {
            refusal @ ..0 => {
                out.output().iter_mut().for_each(|bits| *bits |= 1 << 22);
                refusal
            }
            answer => answer,
        },
    ),
    decodes_points(
        "a point cleared before 13 is found",
        |layout, bytes, out| match expected_decode_point(layout, bytes, out) {
            -13 => {
                out.output().fill(0);
                refused(Refusal::Length)
            }
            answer => answer,
        },
    ),
    // The order of refusals.
    decodes("13 before 9, decoding", |layout, packed, out| {
        match packed.len() == packed_length(layout, out.length() / 3) {
            true => expected_decode_line(layout, packed, out),
            false => refused(Refusal::Length),
        }
    }),
    decodes_points(
        "13 before 9, decoding a point",
        |layout, bytes, out| match bytes.len() == bytes_a_point(layout) {
            true => expected_decode_point(layout, bytes, out),
            false => refused(Refusal::Length),
        },
    ),
    // Layouts.
    decodes(
        "primaries not looked at, decoding",
        |layout, packed, out| {
            let mut changed = layout;
            changed[PRIMARIES] = 1;
            expected_decode_line(changed, packed, out)
        },
    ),
    decodes_points("9 bits taken for 8", |layout, bytes, out| {
        let mut changed = layout;
        if layout[DEPTH] == 9 {
            changed[DEPTH] = 8;
        }
        expected_decode_point(changed, bytes, out)
    }),
    decodes("range 4 decoded as 3", |layout, packed, out| {
        let mut changed = layout;
        if layout[RANGE] == 4 {
            changed[RANGE] = LEGACY;
        }
        expected_decode_line(changed, packed, out)
    }),
    decodes(
        "range 3 refused, decoding",
        |layout, packed, out| match layout[RANGE] {
            LEGACY => refused(Refusal::Outside),
            _ => expected_decode_line(layout, packed, out),
        },
    ),
    decodes("everything refused", |_, _, _| refused(Refusal::Outside)),
    decodes_points("every point refused", |_, _, _| refused(Refusal::Outside)),
];

pub const fn decodes(
    mistake: &'static str,
    decode_line: fn(Layout, &[u8], &mut Guarded<u32>) -> i64,
) -> Wrong {
    let library = Library {
        decode_line,
        ..REFERENCE
    };
    (mistake, library)
}

pub const fn decodes_points(
    mistake: &'static str,
    decode_point: fn(Layout, &[u8], &mut Guarded<u32>) -> i64,
) -> Wrong {
    let library = Library {
        decode_point,
        ..REFERENCE
    };
    (mistake, library)
}

/// Decodes the codes that lie in other places.
fn decoded_from(layout: Layout, packed: &[u8], out: &mut Guarded<u32>, place: Place) -> i64 {
    expected_decode_line(layout, &with_places(layout, packed, place), out)
}
