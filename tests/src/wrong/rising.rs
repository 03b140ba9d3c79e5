//! Mistakes by which a code falls where the value rises, or an end is not reached. The parts
//! that look for this must catch them, each alone: other parts would catch most of them too.

use reference::quantization::Scale;
use reference::refusal::Refusal;

use crate::library::{Setting, Slot};
use crate::lines::expected_encode_line;
use crate::plain::lines::encoded;
use crate::plain::quantization::{all_codes, clamped, ends, right_number};
use crate::quantization::{expected_quantize, refused, scale};

use super::encode::encodes;
use super::quantization::quantizes;
use super::Wrong;

/// Each of the mistakes, made in quantizing and in encoding a line.
macro_rules! mistaken {
    ($($mistake:literal: $quantize:expr,)*) => {
        pub const QUANTIZING: &[Wrong] = &[$(quantizes($mistake, $quantize),)*];

        pub const ENCODING: &[Wrong] = &[$(
            encodes(concat!($mistake, ", encoding"), |layout, values, out| {
                encoded(layout, values, out, $quantize)
            }),
        )*];
    };
}

mistaken! {
    // One value.
    "one value one code under its lower neighbour": |setting, value, cuts| {
        let code = expected_quantize(setting, value.to_bits(), cuts);
        match setting {
            // The value of a code, where its neighbours have the same.
            [2, 1, 12, 2] if value == 1000.0 / 3584.0 => code - 1,
            _ => code,
        }
    },
    "a tie of one scale two codes up": |setting, value, cuts| {
        let code = expected_quantize(setting, value.to_bits(), cuts);
        // One code up it would not fall.
        code + 2 * i64::from(setting == [1, 3, 10, 1] && value == 100.5 / 1024.0)
    },
    "minus zero as what lies below the least float": |setting, value, cuts| {
        // So does all that has a minus, and only the two zeros tell it.
        let code = expected_quantize(setting, value.to_bits(), cuts);
        match scale(setting) {
            Ok(scale) if value.is_sign_negative() => (code - 1).max(ends(scale)[0]),
            _ => code,
        }
    },
    // Infinities and ends.
    "plus infinity to the lower end": |setting, value, cuts| {
        expected_quantize(setting, other_infinity(value, f32::INFINITY).to_bits(), cuts)
    },
    "minus infinity to the upper end": |setting, value, cuts| {
        expected_quantize(setting, other_infinity(value, f32::NEG_INFINITY).to_bits(), cuts)
    },
    "infinities taken for zero": |setting, value, cuts| {
        let value = if value.is_infinite() { 0.0 } else { value };
        expected_quantize(setting, value.to_bits(), cuts)
    },
    "plus infinity one code under the end": |setting, value, cuts| {
        let code = expected_quantize(setting, value.to_bits(), cuts);
        code - i64::from(value == f32::INFINITY)
    },
    "the ends of all codes": |setting, value, cuts| {
        clamped(setting, value, cuts, right_number, all_codes)
    },
    "ends one code within": |setting, value, cuts| {
        clamped(setting, value, cuts, right_number, |scale| {
            let [least, greatest] = ends(scale);
            [least + 1, greatest - 1]
        })
    },
    "no code above 128": |setting, value, cuts| {
        expected_quantize(setting, value.to_bits(), cuts).min(128)
    },
    // Numbers.
    "the number modulo 2^n for a clamp": |setting, value, cuts| {
        of_finite(setting, value, cuts, |scale, number| {
            number.rem_euclid((1_u32 << scale.depth).into())
        })
    },
    "large numbers cut to 32 bits": |setting, value, cuts| {
        of_finite(setting, value, cuts, |_, number| f64::from(number as i64 as i32))
    },
    "a number under zero to the top": |setting, value, cuts| {
        of_finite(setting, value, cuts, |_, number| match number {
            ..0.0 => f64::MAX,
            _ => number,
        })
    },
    "a number above the span to zero": |setting, value, cuts| {
        of_finite(setting, value, cuts, |scale, number| match number as i64 > ends(scale)[1] {
            true => 0.0,
            false => number,
        })
    },
    "rounding without the sign": |setting, value, cuts| {
        of_finite(setting, value, cuts, |_, number| number.abs())
    },
    // Reading the bits.
    "the sign left out": |setting, value, cuts| {
        let value = if value.is_finite() { value.abs() } else { value };
        expected_quantize(setting, value.to_bits(), cuts)
    },
    "subnormals taken for large": |setting, value, cuts| {
        let bits = value.to_bits();
        let large = if value.is_subnormal() { bits | 200 << 23 } else { bits };
        expected_quantize(setting, large, cuts)
    },
    "a shift beyond 63 places wraps round": |setting, value, cuts| {
        // To shift by 64 places less is to have 64 more in the exponent field.
        let mut bits = value.to_bits();
        while bits >> 23 & 255 < 150 - 64 {
            bits += 64 << 23;
        }
        expected_quantize(setting, bits, cuts)
    },
    "the greatest exponent taken for the least": |setting, value, cuts| {
        let bits = value.to_bits();
        let least = if bits >> 23 & 255 == 254 { bits & !(255 << 23) } else { bits };
        expected_quantize(setting, least, cuts)
    },
}

/// Mistakes of a line.
pub const IN_LINES: &[Wrong] = &[
    encodes(
        "the last point of a line as its first",
        |layout, values, out| {
            let mut values = values.to_vec();
            if let [first, second, third, .., red, green, blue] = &mut values[..] {
                [*red, *green, *blue] = [*first, *second, *third];
            }
            expected_encode_line(layout, &values, out)
        },
    ),
    encodes("two points of a turn exchanged", |layout, values, out| {
        let mut values = values.to_vec();
        for turn in values.chunks_exact_mut(3 * 8) {
            let (one, other) = turn[9..15].split_at_mut(3);
            one.swap_with_slice(other);
        }
        expected_encode_line(layout, &values, out)
    }),
    encodes(
        "lines under 4,096 points refused",
        |layout, values, out| match values.len() / 3 {
            4096 => expected_encode_line(layout, values, out),
            _ => refused(Refusal::Length),
        },
    ),
];

/// Another number for the rounded one. Infinities are right, so that both ends are reached.
fn of_finite(setting: Setting, value: f32, cuts: &mut Slot, wrong: fn(Scale, f64) -> f64) -> i64 {
    if value.is_infinite() {
        return expected_quantize(setting, value.to_bits(), cuts);
    }
    let rule = |scale, value| wrong(scale, right_number(scale, value));
    clamped(setting, value, cuts, rule, ends)
}

/// Minus infinity for plus infinity, or plus for minus; any other value as it is.
fn other_infinity(value: f32, infinity: f32) -> f32 {
    if value == infinity {
        -value
    } else {
        value
    }
}
