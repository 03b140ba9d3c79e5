//! Mistakes in what is cut that are made before there is a whole number, or beside it. The
//! codes are right.

use reference::quantization::{Kind, Range, Scale};

use crate::clamped::Clamped;
use crate::color::expected_convert;
use crate::guarded::Guarded;
use crate::library::{Conversion, Direction, Setting, Slot, CUTS};
use crate::plain::color::{converted, half_up, made_scales, numbers, Pieces, Ratio, PIECES};
use crate::plain::lines::{encoded, encoded_point};
use crate::plain::quantization::{ends, line, on_line, outside, right_number};
use crate::quantization::{expected_quantize, scale_of};

use super::converts::{by, converts, to_rgb};
use super::encode::{encodes, encodes_points};
use super::quantization::quantizes;
use super::Wrong;

/// Each of the mistakes, made in quantizing, and in encoding a line and a point.
macro_rules! mistaken {
    ($($mistake:literal: $is_cut:expr,)*) => {
        pub const QUANTIZING: &[Wrong] = &[$(
            quantizes($mistake, |setting, value, cuts| told(setting, value, cuts, $is_cut)),
        )*];

        pub const ENCODING: &[Wrong] = &[$(
            encodes(concat!($mistake, ", encoding"), |layout, values, out| {
                encoded(layout, values, out, |setting, value, cuts| {
                    told(setting, value, cuts, $is_cut)
                })
            }),
            encodes_points(concat!($mistake, ", a point"), |layout, values, out| {
                encoded_point(layout, values, out, |setting, value, cuts| {
                    told(setting, value, cuts, $is_cut)
                })
            }),
        )*];
    };
}

mistaken! {
    // Infinities.
    "infinities not counted": |_, value, cut| cut && value.is_finite(),
    "only plus infinity counted": |_, value, cut| cut && value != f32::NEG_INFINITY,
    "only minus infinity counted": |_, value, cut| cut && value != f32::INFINITY,
    "only infinities counted": |_, value, _| value.is_infinite(),
    // Rounding.
    "cut before it is rounded": |scale, value, _| {
        let [low, high] = ends(scale).map(|end| end as f64);
        !(low..=high).contains(&on_line(line(scale), value))
    },
    "half a code above the top not counted": |scale, value, cut| {
        cut && on_line(line(scale), value) != ends(scale)[1] as f64 + 0.5
    },
    "half a code below 0 counted in the older full range": |scale, value, cut| {
        cut || scale.range == Range::LegacyFull && on_line(line(scale), value) == -0.5
    },
    "truncated for the cut": |scale, value, _| {
        outside(scale, on_line(line(scale), value).trunc() as i128, ends(scale))
    },
    // Values.
    "what is no value of the scale counted": |scale, value, _| match scale.kind {
        Kind::Brightness => !(0.0..=1.0).contains(&value),
        Kind::Difference => !(-0.5..=0.5).contains(&value),
    },
    "minus zero counted": |_, value, cut| cut || value.to_bits() == 1 << 31,
    "subnormal floats counted": |_, value, cut| cut || value.is_subnormal(),
    "numbers taken for their lowest 16 bits": |scale, value, _| {
        let number = right_number(scale, value) as i64;
        outside(scale, (number as i16).into(), ends(scale))
    },
    "the greatest floats not counted": |_, value, cut| cut && value.abs() != f32::MAX,
    "differences not counted": |scale, _, cut| cut && scale.kind == Kind::Brightness,
}

/// Mistakes that can be made in both directions.
pub const CONVERTING: &[Wrong] = [
    converts(
        "cut before it is rounded",
        |direction, conversion, codes, out| {
            recounted(direction, conversion, codes, out, |scale, (p, q)| {
                let [low, high] = ends(scale).map(i128::from);
                p < low * q || high * q < p
            })
        },
    ),
    converts(
        "half a code above the top not counted",
        |direction, conversion, codes, out| {
            recounted(direction, conversion, codes, out, |scale, (p, q)| {
                let [_, high] = ends(scale).map(i128::from);
                2 * p != (2 * high + 1) * q && is_cut(scale, (p, q))
            })
        },
    ),
    converts(
        "the span of the given range",
        |direction, conversion, codes, out| {
            let pieces = match conversion {
                [_, _, 1, _] => Pieces {
                    cut: |scale, number, _| outside(scale, number, ends(of(Range::Narrow, scale))),
                    ..PIECES
                },
                [_, _, 2, _] => Pieces {
                    cut: |scale, number, _| outside(scale, number, ends(of(Range::Full, scale))),
                    ..PIECES
                },
                _ => Pieces {
                    cut: |scale, number, _| {
                        outside(scale, number, ends(of(Range::LegacyFull, scale)))
                    },
                    ..PIECES
                },
            };
            converted(direction, conversion, codes, out, pieces)
        },
    ),
    converts(
        "the given codes beyond their span counted",
        |direction, conversion, codes, out| {
            let answer = expected_convert(direction, conversion, codes, out);
            if answer >= 0 {
                let [_, depth, range_in, _] = conversion;
                // All channels have the same ends.
                let scale = scale_of([1, range_in, depth, 0]);
                let beyond = |code: &&u16| outside(scale, i128::from(**code), ends(scale));
                out.cuts[CUTS] = codes.elements().iter().filter(beyond).count() as u32;
            }
            answer
        },
    ),
    converts(
        "codes that are an end counted",
        |direction, conversion, codes, out| {
            let answer = expected_convert(direction, conversion, codes, out);
            if answer >= 0 {
                let [_, depth, _, range_out] = conversion;
                let ends = ends(scale_of([1, range_out, depth, 0]));
                let is_end = |code: &&u16| ends.contains(&i64::from(**code));
                out.cuts[CUTS] = out.elements().iter().filter(is_end).count() as u32;
            }
            answer
        },
    ),
]
.as_flattened();

/// Only R'G'B' is ever exactly -1/2.
pub const CONVERTING_TO_RGB: &[Wrong] = &[
    to_rgb(
        "floor's cut in full range",
        by!(Pieces {
            round: |_, ratio| half_up(ratio),
            ..PIECES
        }),
    ),
    to_rgb(
        "Round's cut in the older full range",
        by!(Pieces {
            round: |_, ratio| away_from_zero(ratio),
            ..PIECES
        }),
    ),
    to_rgb(
        "floor's cut in full range, G' alone",
        |direction, conversion, codes, out| {
            let points = codes.elements().as_chunks().0.to_vec();
            let answer = converted(direction, conversion, codes, out, PIECES);
            if answer >= 0 && conversion[3] == 2 {
                let minus_half = |point: &&[u16; 3]| {
                    let [_, (p, q), _] = numbers(direction, conversion, PIECES, **point);
                    2 * p == -q
                };
                out.cuts[CUTS] -= points.iter().filter(minus_half).count() as u32;
            }
            answer
        },
    ),
];

/// Quantizes rightly, with another rule for what is cut.
fn told(
    setting: Setting,
    value: f32,
    cuts: &mut Slot,
    is_cut: fn(Scale, f32, bool) -> bool,
) -> i64 {
    let answer = expected_quantize(setting, value.to_bits(), cuts);
    if answer >= 0 {
        cuts[CUTS] = is_cut(scale_of(setting), value, cuts[CUTS] == 1).into();
    }
    answer
}

/// Converts rightly, with another rule for what is cut, by the numbers before rounding.
fn recounted(
    direction: Direction,
    conversion: Conversion,
    codes: &mut Guarded<u16>,
    out: &mut Clamped<u16>,
    is_cut: fn(Scale, Ratio) -> bool,
) -> i64 {
    let answer = expected_convert(direction, conversion, codes, out);
    if answer >= 0 {
        let scales = made_scales(direction, conversion);
        let (points, _) = codes.elements().as_chunks();
        let cuts = points.iter().map(|&point| {
            let numbers = numbers(direction, conversion, PIECES, point);
            let channels = scales.into_iter().zip(numbers);
            channels
                .filter(|&(scale, number)| is_cut(scale, number))
                .count()
        });
        out.cuts[CUTS] = cuts.sum::<usize>() as u32;
    }
    answer
}

/// The right rule.
fn is_cut(scale: Scale, number: Ratio) -> bool {
    outside(scale, (PIECES.round)(scale, number), ends(scale))
}

fn away_from_zero((p, q): Ratio) -> i128 {
    p.signum() * half_up((p.abs(), q))
}

fn of(range: Range, scale: Scale) -> Scale {
    Scale { range, ..scale }
}
