//! Mistakes in unpacking a line.

use reference::layout;
use reference::lines;
use reference::refusal::Refusal;

use crate::guarded::Guarded;
use crate::layouts::{bytes_a_point, elements_in, packed_length, BYTES, DEPTH, OFFSETS, SAMPLING};
use crate::library::{Layout, Library};
use crate::lines::{answer, expected_unpack_line};
use crate::plain::lines::{load_fields, place, unpacked};
use crate::quantization::refused;

use super::ends::{line_within_the_ends, refusing_points};
use super::points::{
    big_endian_place, keeping_from, neighbours_place, place_in_neighbours_bytes,
    place_in_turned_bytes, place_in_two_bytes,
};
use super::{Wrong, REFERENCE};

pub const WRONG: &[Wrong] = &[
    // Which points.
    unpacks("only the first point unpacked", |layout, packed, out| {
        keeping_from(3, out, |out| expected_unpack_line(layout, packed, out))
    }),
    unpacks("point 4,096 left out", |layout, packed, out| {
        keeping_from(3 * 4095, out, |out| {
            expected_unpack_line(layout, packed, out)
        })
    }),
    // Which bits.
    unpacks(
        "a field's offset taken for its neighbour's, unpacking",
        |layout, packed, out| unpacked(layout, packed, out, neighbours_place),
    ),
    unpacks("big-endian points unpacked", |layout, packed, out| {
        unpacked(layout, packed, out, big_endian_place)
    }),
    unpacks(
        "a field read from its neighbour's bytes, unpacking",
        |layout, packed, out| unpacked(layout, packed, out, place_in_neighbours_bytes),
    ),
    unpacks(
        "the bytes of a field in the other order, unpacking",
        |layout, packed, out| unpacked(layout, packed, out, place_in_turned_bytes),
    ),
    unpacks(
        "a field's second byte read for its third, unpacking",
        |layout, packed, out| unpacked(layout, packed, out, place_in_two_bytes),
    ),
    unpacks("points cut to 32 bits", |layout, packed, out| {
        let mut cut = packed.to_vec();
        if layout::Layout::new(layout).is_ok() {
            for point in cut.chunks_mut(bytes_a_point(layout)) {
                point.iter_mut().skip(4).for_each(|byte| *byte = 0);
            }
        }
        expected_unpack_line(layout, &cut, out)
    }),
    unpacks("the highest bit of a code lost", |layout, packed, out| {
        let count = expected_unpack_line(layout, packed, out);
        if count > 0 {
            let highest = 1 << (layout[DEPTH] - 1);
            out.output().iter_mut().for_each(|code| *code &= !highest);
        }
        count
    }),
    // Which codes.
    unpacks(
        "narrow codes beyond the ends unpacked as the nearer",
        |layout, packed, out| {
            expected_unpack_line(layout, &line_within_the_ends(layout, packed), out)
        },
    ),
    unpacks(
        "narrow codes beyond the ends refused, unpacking",
        |layout, packed, out| refusing_points(layout, packed, out, expected_unpack_line),
    ),
    // Counts.
    unpacks(
        "a count of another quotient",
        |layout, packed, out| match expected_unpack_line(layout, packed, out) {
            0.. => packed.len() as i64 / 3,
            refusal => refusal,
        },
    ),
    // Refusal 13.
    unpacks("4,097 points unpacked", |layout, packed, out| {
        let [most, one_more] = [4096, 4097].map(|points| packed_length(layout, points));
        match expected_unpack_line(layout, packed, out) {
            -13 if packed.len() == one_more && out.length() == 3 * 4097 => {
                let (codes, last) = out.output().split_at_mut(3 * 4096);
                answer(lines::unpack_line(layout, &packed[..most], codes))
                    + answer(lines::unpack_line(layout, &packed[most..], last))
            }
            answer => answer,
        }
    }),
    unpacks("the count cut to 16 bits", |layout, packed, out| {
        let cut = match layout::Layout::new(layout) {
            Ok(layout) => packed.len() % (65_536 * layout.point_bytes()),
            Err(_) => packed.len(),
        };
        expected_unpack_line(layout, &packed[..cut], out)
    }),
    unpacks(
        "a last part of a point passed over",
        |layout, packed, out| {
            let rest = match layout::Layout::new(layout) {
                Ok(layout) => packed.len() % layout.point_bytes(),
                Err(_) => 0,
            };
            expected_unpack_line(layout, &packed[..packed.len() - rest], out)
        },
    ),
    unpacks(
        "a too long output accepted, unpacking",
        |layout, packed, out| {
            let length = elements_in(layout, packed.len()).min(out.length());
            answer(lines::unpack_line(
                layout,
                packed,
                &mut out.output()[..length],
            ))
        },
    ),
    // The order of refusals.
    unpacks("13 before 9", |layout, packed, out| {
        match packed.len() == packed_length(layout, out.length() / 3) {
            true => expected_unpack_line(layout, packed, out),
            false => refused(Refusal::Length),
        }
    }),
    // Layouts.
    unpacks("overlapping fields unpacked", |layout, packed, out| {
        match expected_unpack_line(layout, packed, out) {
            -9 if only_overlaps(layout) => {
                // The answer of the same point with its fields apart.
                let count = expected_unpack_line(with_fields_apart(layout), packed, out);
                if count > 0 {
                    load_fields(layout, packed, out.output(), place);
                }
                count
            }
            answer => answer,
        }
    }),
    unpacks("everything refused", |_, _, _| refused(Refusal::Outside)),
];

pub const fn unpacks(
    mistake: &'static str,
    unpack_line: fn(Layout, &[u8], &mut Guarded<u16>) -> i64,
) -> Wrong {
    let library = Library {
        unpack_line,
        ..REFERENCE
    };
    (mistake, library)
}

pub fn only_overlaps(layout: Layout) -> bool {
    layout::Layout::new(with_fields_apart(layout)).is_ok()
        && layout[OFFSETS..SAMPLING]
            .iter()
            .all(|offset| offset.saturating_add(layout[DEPTH]) <= 8 * layout[BYTES])
}

pub fn with_fields_apart(layout: Layout) -> Layout {
    let mut apart = layout;
    apart[OFFSETS..SAMPLING]
        .copy_from_slice(&[0, 1, 2].map(|field| layout[DEPTH].wrapping_mul(field)));
    apart
}
