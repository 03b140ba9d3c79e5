//! Mistakes in the colors of a point that can be made in both directions.

use reference::quantization::{Kind, Range, Scale};

use crate::color::expected_convert;
use crate::plain::color::{converted, half_up, rounded, weights, Pieces, Ratio, ONE, PIECES};
use crate::plain::quantization::line;

use super::converts::{by, converts};
use super::ends::within_the_ends;
use super::Wrong;

pub const WRONG: &[Wrong] = PAIRS.as_flattened();

const PAIRS: &[[Wrong; 2]] = &[
    // Weights.
    converts(
        "the blue weight for the red",
        by!(Pieces {
            weights: |primaries| {
                let [_, _, kb] = weights(primaries);
                [kb, ONE - 2 * kb, kb]
            },
            ..PIECES
        }),
    ),
    converts(
        "the red and the blue weight exchanged",
        by!(Pieces {
            weights: |primaries| {
                let [kr, kg, kb] = weights(primaries);
                [kb, kg, kr]
            },
            ..PIECES
        }),
    ),
    converts(
        "KG from one weight",
        by!(Pieces {
            weights: |primaries| {
                let [kr, _, kb] = weights(primaries);
                [kr, ONE - kr, kb]
            },
            ..PIECES
        }),
    ),
    converts(
        "BT.601's weights for BT.2020",
        by!(Pieces {
            weights: |primaries| weights(if primaries == 4 { 3 } else { primaries }),
            ..PIECES
        }),
    ),
    converts(
        "ST-240's weights for BT.601 SMPTE",
        by!(Pieces {
            weights: |primaries| match primaries {
                3 => [2120, 7010, 870],
                _ => weights(primaries),
            },
            ..PIECES
        }),
    ),
    converts(
        "weights in thousandths",
        by!(Pieces {
            weights: |primaries| {
                let [kr, _, kb] = weights(primaries).map(|weight| (weight + 5) / 10 * 10);
                [kr, ONE - kr - kb, kb]
            },
            ..PIECES
        }),
    ),
    converts(
        "a weight one ten-thousandth off",
        by!(Pieces {
            weights: |primaries| match weights(primaries) {
                [2627, kg, kb] => [2628, kg - 1, kb],
                weights => weights,
            },
            ..PIECES
        }),
    ),
    // Codes and values.
    converts(
        "128 as the base of full-range differences",
        by!(Pieces {
            line: |scale| match (scale.range, scale.kind) {
                (Range::Full, Kind::Difference) => (line(scale).0, 128),
                _ => line(scale),
            },
            ..PIECES
        }),
    ),
    converts(
        "the older full range for the full",
        by!(Pieces {
            line: |scale| match (scale.range, line(scale)) {
                (Range::Full, (step, base)) => (step + 1, base),
                (_, line) => line,
            },
            ..PIECES
        }),
    ),
    converts(
        "full range for the older",
        by!(Pieces {
            line: |scale| match (scale.range, line(scale)) {
                (Range::LegacyFull, (step, base)) => (step - 1, base),
                (_, line) => line,
            },
            ..PIECES
        }),
    ),
    converts(
        "128 as the base of older differences",
        by!(Pieces {
            line: |scale| match (scale.range, scale.kind) {
                (Range::LegacyFull, Kind::Difference) => (line(scale).0, 128),
                _ => line(scale),
            },
            ..PIECES
        }),
    ),
    converts(
        "given codes over 4092 taken for it",
        |direction, conversion, codes, out| {
            let mut given = codes.clone();
            if let [_, 12, 3, _] = conversion {
                let over = given.output().iter_mut().filter(|code| **code < 4096);
                over.for_each(|code| *code = (*code).min(4092));
            }
            expected_convert(direction, conversion, &mut given, out)
        },
    ),
    converts(
        "given narrow codes beyond the ends taken for the nearer",
        |direction, conversion, codes, out| {
            let [_, depth, range_in, _] = conversion;
            let mut given = codes.clone();
            for code in given.output() {
                *code = within_the_ends(range_in, depth, *code);
            }
            expected_convert(direction, conversion, &mut given, out)
        },
    ),
    converts(
        "219 as the span of narrow differences",
        by!(Pieces {
            line: |scale| match (scale.range, scale.kind) {
                (Range::Narrow, Kind::Difference) => (brightness_step(scale), line(scale).1),
                _ => line(scale),
            },
            ..PIECES
        }),
    ),
    // Rounding and clamping.
    converts(
        "truncation for rounding",
        by!(Pieces {
            round: |_, (p, q)| p / q,
            ..PIECES
        }),
    ),
    converts(
        "a half rounded down",
        by!(Pieces {
            round: |_, (p, q)| -half_up((-p, q)),
            ..PIECES
        }),
    ),
    converts(
        "a half rounded to even",
        by!(Pieces {
            round: |_, ratio| half_to_even(ratio),
            ..PIECES
        }),
    ),
    converts(
        "rounding without the sign",
        by!(Pieces {
            round: |_, (p, q)| half_up((p.abs(), q)),
            ..PIECES
        }),
    ),
    converts(
        "a number under zero to the top",
        by!(Pieces {
            round: |scale, ratio| match rounded(scale, ratio) {
                ..0 => 1 << 16,
                number => number,
            },
            ..PIECES
        }),
    ),
    converts(
        "a number of nine bits wraps round",
        |direction, conversion, codes, out| {
            let pieces = Pieces {
                round: |scale, ratio| match rounded(scale, ratio) {
                    number @ 256..512 => number - 256,
                    number => number,
                },
                ..PIECES
            };
            match conversion {
                [_, 8, _, _] => converted(direction, conversion, codes, out, pieces),
                _ => expected_convert(direction, conversion, codes, out),
            }
        },
    ),
];

/// The step of brightness in the same range and depth.
fn brightness_step(scale: Scale) -> i32 {
    let (step, _) = line(Scale {
        kind: Kind::Brightness,
        ..scale
    });
    step
}

fn half_to_even((p, q): Ratio) -> i128 {
    let up = half_up((p, q));
    let tie = (2 * p + q).rem_euclid(2 * q) == 0;
    if tie && up % 2 != 0 {
        up - 1
    } else {
        up
    }
}
