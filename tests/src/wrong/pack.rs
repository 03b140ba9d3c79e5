//! Mistakes in packing a line.

use reference::lines;
use reference::refusal::Refusal;

use crate::guarded::Guarded;
use crate::layouts::{bytes_a_point, packed_length, DEPTH};
use crate::library::{Layout, Library};
use crate::lines::{answer, expected_pack_line};
use crate::plain::lines::{packed, place, store_fields};
use crate::quantization::refused;

use super::ends::{codes_within_the_ends, refusing};
use super::points::{big_endian_place, keeping_from, neighbours_place};
use super::{Wrong, REFERENCE};

pub const WRONG: &[Wrong] = &[
    // Which points.
    packs("only the first point packed", |layout, codes, out| {
        keeping_from(bytes_a_point(layout), out, |out| {
            expected_pack_line(layout, codes, out)
        })
    }),
    packs("eight bytes stored for each point", |layout, codes, out| {
        let count = expected_pack_line(layout, codes, out);
        if count > 0 {
            let after_last = out.length();
            out.output_and_beyond()[after_last..][..8 - bytes_a_point(layout)].fill(0);
        }
        count
    }),
    // Which bits.
    packs(
        "a field's offset taken for its neighbour's, packing",
        |layout, codes, out| packed(layout, codes, out, neighbours_place),
    ),
    packs("big-endian points packed", |layout, codes, out| {
        packed(layout, codes, out, big_endian_place)
    }),
    packs("unused bits kept, packing", |layout, codes, out| {
        let before = out.clone();
        let count = expected_pack_line(layout, codes, out);
        if count > 0 {
            *out = before;
            store_fields(layout, codes, out.output(), place);
        }
        count
    }),
    // Which codes.
    packs("narrow codes clamped, packing", |layout, codes, out| {
        expected_pack_line(layout, &codes_within_the_ends(layout, codes), out)
    }),
    packs(
        "narrow codes beyond the ends refused, packing",
        |layout, codes, out| {
            let beyond = codes_within_the_ends(layout, codes) != codes;
            refusing(beyond, out, |out| expected_pack_line(layout, codes, out))
        },
    ),
    // Counts.
    packs(
        "the count of codes",
        |layout, codes, out| match expected_pack_line(layout, codes, out) {
            0.. => codes.len() as i64,
            refusal => refusal,
        },
    ),
    // Refusal 13.
    packs("4,097 points packed", |layout, codes, out| {
        let [most, one_more] = [4096, 4097].map(|points| packed_length(layout, points));
        match expected_pack_line(layout, codes, out) {
            -13 if codes.len() == 3 * 4097 && out.length() == one_more => {
                let (packed, last) = out.output().split_at_mut(most);
                answer(lines::pack_line(layout, &codes[..3 * 4096], packed))
                    + answer(lines::pack_line(layout, &codes[3 * 4096..], last))
            }
            answer => answer,
        }
    }),
    packs(
        "a too long output accepted, packing",
        |layout, codes, out| {
            let needed = packed_length(layout, codes.len() / 3);
            let length = needed.min(out.length());
            answer(lines::pack_line(layout, codes, &mut out.output()[..length]))
        },
    ),
    // Refusals 12 and 14.
    packs(
        "14 found after the first store",
        |layout, codes, out| match expected_pack_line(layout, codes, out) {
            -14 => {
                let points = out.output().chunks_mut(bytes_a_point(layout));
                answer(
                    points
                        .zip(codes.chunks(3))
                        .try_fold(0, |count, (point, codes)| {
                            lines::pack_line(layout, codes, point).map(|one| count + one)
                        }),
                )
            }
            answer => answer,
        },
    ),
    packs(
        "codes cut to the depth",
        |layout, codes, out| match expected_pack_line(layout, codes, out) {
            -14 => {
                let greatest = (1 << layout[DEPTH]) - 1;
                let cut: Vec<u16> = codes.iter().map(|code| code & greatest).collect();
                expected_pack_line(layout, &cut, out)
            }
            answer => answer,
        },
    ),
    packs(
        "2^n accepted as a code",
        |layout, codes, out| match expected_pack_line(layout, codes, out) {
            -14 => {
                let above = 1 << layout[DEPTH];
                let cut: Vec<u16> = codes
                    .iter()
                    .map(|&code| if code == above { 0 } else { code })
                    .collect();
                expected_pack_line(layout, &cut, out)
            }
            answer => answer,
        },
    ),
    packs("the last code not looked at", |layout, codes, out| {
        let mut codes = codes.to_vec();
        if let Some(last) = codes.last_mut() {
            *last &= 255;
        }
        expected_pack_line(layout, &codes, out)
    }),
    // The order of refusals.
    packs(
        "14 before 13",
        |layout, codes, out| match expected_pack_line(layout, codes, out) {
            -13 if codes.iter().any(|code| code >> layout[DEPTH] != 0) => {
                refused(Refusal::CodeTooHigh)
            }
            answer => answer,
        },
    ),
    packs("14 before 9", |layout, codes, out| {
        match codes.iter().any(|&code| code >= 4096) {
            true => refused(Refusal::CodeTooHigh),
            false => expected_pack_line(layout, codes, out),
        }
    }),
    packs("everything refused", |_, _, _| refused(Refusal::Outside)),
];

pub const fn packs(
    mistake: &'static str,
    pack_line: fn(Layout, &[u16], &mut Guarded<u8>) -> i64,
) -> Wrong {
    let library = Library {
        pack_line,
        ..REFERENCE
    };
    (mistake, library)
}
