//! Mistakes by which R'G'B' codes move farther there and back than they may, and others that
//! the bound's examples show. The bound's own parts must catch them, each alone: other parts
//! would catch most of them too.

use reference::bound::{self, Way};
use reference::quantization::{Kind, Range, Scale};

use crate::clamped::Clamped;
use crate::color::expected_convert;
use crate::guarded::Guarded;
use crate::library::{Conversion, Convert, Direction};
use crate::plain::color::{half_up, rounded, weights, Pieces, PIECES};
use crate::plain::quantization::{ends, line};

use super::converts::{by, converts, to_rgb, to_ycbcr};
use super::points::keeping_clamped_from;
use super::Wrong;

/// Mistakes in one piece of a conversion, each made there and made back.
macro_rules! mistaken {
    ($($mistake:literal: $piece:ident = $wrong:expr,)*) => {
        pub const IN_PIECES: &[Wrong] = [$(
            converts($mistake, by!(Pieces { $piece: $wrong, ..PIECES })),
        )*]
        .as_flattened();
    };
}

mistaken! {
    // Rounding.
    "truncation for rounding": round = |_, (p, q)| p / q,
    "rounded up": round = |_, (p, q)| -(-p).div_euclid(q),
    "brightness truncated": round = |scale, (p, q)| match scale.kind {
        Kind::Brightness => p.div_euclid(q),
        Kind::Difference => rounded(scale, (p, q)),
    },
    "codes of 8 bits at every depth": round = |scale, (p, q)| {
        let s = 1 << (scale.depth - 8);
        s * half_up((p, s * q))
    },
    "a number of n + 1 bits wraps round": round = |scale, ratio| {
        rounded(scale, ratio).rem_euclid(1 << scale.depth)
    },
    // Spans, bases and weights.
    "219 as the span of narrow differences": line = |scale| match scale.range {
        Range::Narrow => (219 << (scale.depth - 8), line(scale).1),
        Range::Full | Range::LegacyFull => line(scale),
    },
    "full range of 2^n steps": line = |scale| match (scale.range, line(scale)) {
        (Range::Full, (step, base)) => (step + 1, base),
        (_, line) => line,
    },
    "128 as the base of full differences": line = |scale| match (scale.range, scale.kind) {
        (Range::Full, Kind::Difference) => (line(scale).0, 128),
        _ => line(scale),
    },
    "full range taken for narrow": line = |scale| line(Scale { range: Range::Narrow, ..scale }),
    "BT.601's weights for BT.2020": weights = |primaries| weights(primaries.min(3)),
    "weights in hundredths": weights = |primaries| {
        weights(primaries).map(|weight| (weight + 50) / 100 * 100)
    },
    // Ends.
    "narrow clamped two codes within its nominal ends": ends = |scale| match scale.range {
        Range::Narrow => {
            let s = 1 << (scale.depth - 8);
            [16 * s + 2, 235 * s - 2]
        }
        Range::Full | Range::LegacyFull => ends(scale),
    },
}

/// Mistakes at single points, in ranges and in lines.
pub const WRONG: &[Wrong] = &[
    to_rgb(
        "one corner of one way one too far",
        |_, conversion, codes, out| {
            too_far(conversion, codes, out, ([4, 12, 2, 1], [4095, 0, 4095]))
        },
    ),
    to_rgb(
        "one point of an edge one too far",
        |_, conversion, codes, out| {
            too_far(conversion, codes, out, ([3, 10, 1, 2], [940, 500, 64]))
        },
    ),
    to_rgb("one grey one too far", |_, conversion, codes, out| {
        too_far(conversion, codes, out, ([2, 12, 2, 2], [1234; 3]))
    }),
    to_rgb(
        "points within the cube too far",
        |direction, conversion, codes, out| {
            let count = expected_convert(direction, conversion, codes, out);
            if count > 0 {
                let quarter = 1 << (conversion[1] - 2);
                let within = |point: &[u16]| {
                    let inner = point
                        .iter()
                        .all(|code| (quarter..3 * quarter).contains(code));
                    inner && point[0].abs_diff(point[2]) > quarter / 4
                };
                for point in out.output().chunks_mut(3).filter(|point| within(point)) {
                    point[1] += 4;
                }
            }
            count
        },
    ),
    to_rgb(
        "back through the other range",
        |direction, [primaries, depth, range_in, range_out], codes, out| {
            let conversion = [primaries, depth, other(range_in), range_out];
            expected_convert(direction, conversion, codes, out)
        },
    ),
    to_rgb(
        "back to the other range",
        |direction, [primaries, depth, range_in, range_out], codes, out| {
            let conversion = [primaries, depth, range_in, other(range_out)];
            expected_convert(direction, conversion, codes, out)
        },
    ),
    to_ycbcr("there, the last point left out", LAST_LEFT_OUT),
    to_rgb("back, the last point left out", LAST_LEFT_OUT),
    to_ycbcr("there, the count one less", ONE_LESS),
    to_rgb("back, the count one less", ONE_LESS),
];

const LAST_LEFT_OUT: Convert = |direction, conversion, codes, out| {
    let last = out.length().saturating_sub(3);
    keeping_clamped_from(last, out, |out| {
        expected_convert(direction, conversion, codes, out)
    })
};

const ONE_LESS: Convert = |direction, conversion, codes, out| {
    let count = expected_convert(direction, conversion, codes, out);
    count - i64::from(count > 0)
};

/// Mistakes that the examples must show, though the bound holds with most of them.
pub const UNLIKE_EXAMPLES: &[Wrong] = &[
    to_ycbcr(
        "narrow codes beyond the nominal ends taken for them",
        |direction, conversion, codes, out| {
            let mut given = codes.clone();
            if let [_, depth, 1, _] = conversion {
                nominal(given.output(), depth);
            }
            expected_convert(direction, conversion, &mut given, out)
        },
    ),
    to_rgb(
        "narrow R'G'B' clamped to its nominal ends",
        |direction, conversion, codes, out| {
            let count = expected_convert(direction, conversion, codes, out);
            if let (1.., [_, depth, _, 1]) = (count, conversion) {
                nominal(out.output(), depth);
            }
            count
        },
    ),
    to_rgb(
        "255 for 253, full through narrow",
        |direction, conversion, codes, out| {
            let count = expected_convert(direction, conversion, codes, out);
            if let (1.., [1, 8, 1, 2]) = (count, conversion) {
                out.output()
                    .iter_mut()
                    .filter(|code| **code == 253)
                    .for_each(|code| *code = 255);
            }
            count
        },
    ),
];

fn nominal(codes: &mut [u16], depth: u8) {
    let s = 1 << (depth - 8);
    for code in codes.iter_mut() {
        *code = (*code).clamp(16 * s, 235 * s);
    }
}

/// Full range for narrow, and narrow for full.
fn other(range: u8) -> u8 {
    match range {
        1 => 2,
        2 => 1,
        _ => range,
    }
}

/// Converts back rightly, but what this point of this way has become comes back with B' one
/// farther than it may be.
fn too_far(
    conversion: Conversion,
    codes: &mut Guarded<u16>,
    out: &mut Clamped<u16>,
    (way, given): (Way, [u16; 3]),
) -> i64 {
    let count = expected_convert(Direction::YcbcrToRgb, conversion, codes, out);
    let [primaries, depth, first, second] = way;
    if count > 0 && conversion == [primaries, depth, second, first] {
        let there = bound::there_and_back(way, given)
            .expect("a right point")
            .ycbcr;
        let farther = bound::most(way, given).expect("a bound") + 1;
        let points = codes.elements().chunks(3).zip(out.output().chunks_mut(3));
        for (_, back) in points.filter(|(ycbcr, _)| *ycbcr == there) {
            back[2] = given[2].checked_sub(farther).unwrap_or(given[2] + farther);
        }
    }
    count
}
