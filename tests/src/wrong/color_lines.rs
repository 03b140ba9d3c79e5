//! Mistakes in a line of colors: which points, channels and ranges.

use crate::color::expected_convert;
use crate::guarded::Guarded;
use crate::library::{Direction, CUTS};

use super::converts::converts;
use super::points::keeping_clamped_from;
use super::Wrong;

pub const WRONG: &[Wrong] = PAIRS.as_flattened();

const PAIRS: &[[Wrong; 2]] = &[
    // Which points.
    converts(
        "only the first point converted",
        |direction, conversion, codes, out| {
            keeping_clamped_from(3, out, |out| {
                expected_convert(direction, conversion, codes, out)
            })
        },
    ),
    converts(
        "point 4,096 left out",
        |direction, conversion, codes, out| {
            keeping_clamped_from(3 * 4095, out, |out| {
                expected_convert(direction, conversion, codes, out)
            })
        },
    ),
    converts(
        "the first point for all",
        |direction, conversion, codes, out| {
            let count = expected_convert(direction, conversion, codes, out);
            let output = out.output();
            for place in 3..output.len() {
                if count > 0 {
                    output[place] = output[place - 3];
                }
            }
            count
        },
    ),
    converts(
        "a code stored past the end",
        |direction, conversion, codes, out| {
            let count = expected_convert(direction, conversion, codes, out);
            if count > 0 {
                let after_last = out.length();
                out.output_and_beyond()[after_last] = 0;
            }
            count
        },
    ),
    converts(
        "the lent codes changed",
        |direction, conversion, codes, out| {
            let count = expected_convert(direction, conversion, codes, out);
            if count > 0 {
                codes.output().copy_from_slice(out.elements());
            }
            count
        },
    ),
    converts(
        "a lent code changed on a refusal",
        |direction, conversion, codes, out| {
            let count = expected_convert(direction, conversion, codes, out);
            if count == -14 {
                codes.output().iter_mut().for_each(|code| *code &= 4095);
            }
            count
        },
    ),
    // Which channels.
    converts(
        "the last two channels made exchanged",
        |direction, conversion, codes, out| {
            let count = expected_convert(direction, conversion, codes, out);
            if count > 0 {
                exchange(out, [1, 2]);
            }
            count
        },
    ),
    converts(
        "the last two channels given exchanged",
        |direction, conversion, codes, out| {
            let mut exchanged = codes.clone();
            exchange(&mut exchanged, [1, 2]);
            expected_convert(direction, conversion, &mut exchanged, out)
        },
    ),
    converts(
        "the outer channels given exchanged",
        |direction, conversion, codes, out| {
            let mut exchanged = codes.clone();
            exchange(&mut exchanged, [0, 2]);
            expected_convert(direction, conversion, &mut exchanged, out)
        },
    ),
    converts(
        "the outer channels made exchanged",
        |direction, conversion, codes, out| {
            let count = expected_convert(direction, conversion, codes, out);
            if count > 0 {
                exchange(out, [0, 2]);
            }
            count
        },
    ),
    converts(
        "the other direction",
        |direction, conversion, codes, out| {
            let other = match direction {
                Direction::RgbToYcbcr => Direction::YcbcrToRgb,
                Direction::YcbcrToRgb => Direction::RgbToYcbcr,
            };
            expected_convert(other, conversion, codes, out)
        },
    ),
    converts("the codes copied", |direction, conversion, codes, out| {
        let count = expected_convert(direction, conversion, codes, out);
        if count > 0 {
            out.output().copy_from_slice(codes.elements());
        }
        count
    }),
    // Which ranges.
    converts(
        "the given range for both",
        |direction, conversion, codes, out| match conversion {
            [primaries, depth, range_in, 1..=3] => {
                let conversion = [primaries, depth, range_in, range_in];
                expected_convert(direction, conversion, codes, out)
            }
            _ => expected_convert(direction, conversion, codes, out),
        },
    ),
    converts(
        "the made range for both",
        |direction, conversion, codes, out| match conversion {
            [primaries, depth, 1..=3, range_out] => {
                let conversion = [primaries, depth, range_out, range_out];
                expected_convert(direction, conversion, codes, out)
            }
            _ => expected_convert(direction, conversion, codes, out),
        },
    ),
    converts(
        "the ranges exchanged",
        |direction, [primaries, depth, range_in, range_out], codes, out| {
            let conversion = [primaries, depth, range_out, range_in];
            expected_convert(direction, conversion, codes, out)
        },
    ),
    // Counts.
    converts(
        "the count of codes",
        |direction, conversion, codes, out| match expected_convert(
            direction, conversion, codes, out,
        ) {
            0.. => codes.length() as i64,
            refusal => refusal,
        },
    ),
    converts(
        "an empty line never refused",
        |direction, conversion, codes, out| match codes.length() {
            0 => {
                out.cuts[CUTS] = 0;
                0
            }
            _ => expected_convert(direction, conversion, codes, out),
        },
    ),
];

/// Exchanges two channels in all whole points.
fn exchange(codes: &mut Guarded<u16>, [one, other]: [usize; 2]) {
    for point in codes.output().chunks_exact_mut(3) {
        point.swap(one, other);
    }
}
