//! Mistakes in one value both ways.

use reference::quantization::{Kind, Range, Scale};
use reference::refusal::Refusal;

use crate::library::{Library, Quantize, Setting, Slot, FLOAT};
use crate::plain::quantization::{
    all_codes, clamped, divided, ends, half_up, line, numbered, right_number, rounded,
};
use crate::quantization::{expected_dequantize, expected_quantize, refused, scale};

use super::ends::{
    brightness_alone, infinities_to_all_codes, rounded_after_the_clamp, within_the_ends,
};
use super::{Wrong, REFERENCE};

pub const WRONG: &[Wrong] = &[
    // Floats to codes: the formulas.
    quantizes("a rounded product", |setting, value, cuts| {
        numbered(setting, value, cuts, |scale, v| {
            let (step, base) = line(scale);
            f64::from((v * step as f32 + base as f32 + 0.5).floor())
        })
    }),
    quantizes(
        "128 as the base of full-range difference",
        |setting, value, cuts| rounded(setting, value, cuts, line_with_base_128, half_up),
    ),
    quantizes(
        "the older full range for the full",
        |setting, value, cuts| rounded(setting, value, cuts, older_line, half_up),
    ),
    // It rounds as the older one's formula does, wherever the clamp lets it show.
    quantizes("full range for the older", |setting, value, cuts| {
        rounded(setting, value, cuts, newer_line, half_up)
    }),
    quantizes(
        "128 as the base of older differences",
        |setting, value, cuts| rounded(setting, value, cuts, older_line_with_base_128, half_up),
    ),
    quantizes(
        "older differences without their half",
        |setting, value, cuts| rounded(setting, value, cuts, older_line_without_half, half_up),
    ),
    quantizes(
        "only 8 bits right",
        |[model, range, depth, channel], value, cuts| {
            let scale = match scale([model, range, depth, channel]) {
                Ok(scale) => scale,
                Err(refusal) => return refused(refusal),
            };
            match expected_quantize([model, range, 8, channel], value.to_bits(), cuts) {
                code @ 0.. => code << (scale.depth - 8),
                refusal => refusal,
            }
        },
    ),
    // Floats to codes: rounding and clamping.
    quantizes("truncation for rounding", |setting, value, cuts| {
        rounded(setting, value, cuts, line, f64::trunc)
    }),
    quantizes("a half rounded down", |setting, value, cuts| {
        rounded(setting, value, cuts, line, |x| (x - 0.5).ceil())
    }),
    quantizes("a half rounded to even", |setting, value, cuts| {
        rounded(setting, value, cuts, line, f64::round_ties_even)
    }),
    quantizes(
        "one tie of one scale rounded down",
        |setting, value, cuts| {
            let code = expected_quantize(setting, value.to_bits(), cuts);
            let tie = setting == [1, 2, 12, 2] && value == 0.5;
            code - i64::from(tie)
        },
    ),
    quantizes("the next float above quantized", |setting, value, cuts| {
        expected_quantize(setting, value.next_up().to_bits(), cuts)
    }),
    quantizes("rounding without the sign", |setting, value, cuts| {
        rounded(setting, value, cuts, line, |x| (x.abs() + 0.5).floor())
    }),
    quantizes("full difference 0.5 wraps to 0", |setting, value, cuts| {
        let code = expected_quantize(setting, value.to_bits(), cuts);
        match scale(setting) {
            Ok(scale) if is_full_difference(scale) && value == 0.5 => 0,
            _ => code,
        }
    }),
    quantizes("no clamping at the top", |setting, value, cuts| {
        let code = expected_quantize(setting, value.to_bits(), cuts);
        match scale(setting) {
            Ok(scale) if value.is_finite() => {
                let [least, _] = ends(scale);
                (right_number(scale, value) as i64).max(least)
            }
            _ => code,
        }
    }),
    quantizes(
        "older brightness alone clamped to 4092",
        |setting, value, cuts| {
            clamped(setting, value, cuts, right_number, |scale| {
                match (scale.range, scale.kind) {
                    (Range::LegacyFull, Kind::Difference) => all_codes(scale),
                    _ => ends(scale),
                }
            })
        },
    ),
    quantizes("narrow brightness alone clamped", |setting, value, cuts| {
        clamped(setting, value, cuts, right_number, brightness_alone)
    }),
    quantizes(
        "narrow infinities to the ends of all codes",
        infinities_to_all_codes,
    ),
    quantizes("rounded after the clamp", rounded_after_the_clamp),
    quantizes(
        "narrow codes beyond the ends kept",
        |setting, value, cuts| {
            // As if what was decoded always came back.
            match (setting, value) {
                ([_, 1, _, _], -0.6..1.2) => clamped(setting, value, cuts, right_number, all_codes),
                _ => expected_quantize(setting, value.to_bits(), cuts),
            }
        },
    ),
    quantizes(
        "plus infinity to 4095",
        |setting, value, cuts| match expected_quantize(setting, value.to_bits(), cuts) {
            4092 if value == f32::INFINITY => 4095,
            code => code,
        },
    ),
    quantizes("4093 to 4095 kept", |setting, value, cuts| {
        // As if what was decoded always came back.
        match (setting, value) {
            ([_, 3, _, _], 0.999..1.0) => clamped(setting, value, cuts, right_number, all_codes),
            _ => expected_quantize(setting, value.to_bits(), cuts),
        }
    }),
    quantizes("one older tie rounded down", |setting, value, cuts| {
        let code = expected_quantize(setting, value.to_bits(), cuts);
        let tie = setting == [2, 3, 10, 1] && value == 0.5 / 1024.0;
        code - i64::from(tie)
    }),
    quantizes("large numbers cut to 32 bits", |setting, value, cuts| {
        rounded(setting, value, cuts, line, |x| {
            f64::from(half_up(x) as i64 as i32)
        })
    }),
    // Floats to codes: reading the bits.
    quantizes("minus infinity to the top", |setting, value, cuts| {
        let minus_infinity = value == f32::NEG_INFINITY;
        let value = if minus_infinity { -value } else { value };
        expected_quantize(setting, value.to_bits(), cuts)
    }),
    quantizes("infinities refused", |setting, value, cuts| {
        let value = if value.is_infinite() { f32::NAN } else { value };
        expected_quantize(setting, value.to_bits(), cuts)
    }),
    quantizes("not-a-number given a code", |setting, value, cuts| {
        let value = if value.is_nan() { 0.0 } else { value };
        expected_quantize(setting, value.to_bits(), cuts)
    }),
    quantizes(
        "signalling not-a-number given a code",
        |setting, value, cuts| {
            let signalling = value.is_nan() && value.to_bits() >> 22 & 1 == 0;
            let value = if signalling { 0.0 } else { value };
            expected_quantize(setting, value.to_bits(), cuts)
        },
    ),
    quantizes(
        "a shift beyond 63 places wraps round",
        |setting, value, cuts| {
            // To shift by 64 places less is to have 64 more in the exponent field.
            let mut bits = value.to_bits();
            while bits >> 23 & 255 < 150 - 64 {
                bits += 64 << 23;
            }
            expected_quantize(setting, bits, cuts)
        },
    ),
    quantizes("a constant code", |setting, value, cuts| {
        expected_quantize(setting, value.to_bits(), cuts).min(0)
    }),
    // Codes to floats.
    dequantizes("a constant float", |setting, code, slot| {
        let answer = expected_dequantize(setting, code, slot);
        if answer >= 0 {
            slot[FLOAT] = 0.5_f32.to_bits();
        }
        answer
    }),
    dequantizes("minus zero for zero", |setting, code, slot| {
        let answer = expected_dequantize(setting, code, slot);
        if answer >= 0 && slot[FLOAT] == 0 {
            slot[FLOAT] = (-0.0_f32).to_bits();
        }
        answer
    }),
    dequantizes(
        "one code of one scale one step off",
        |setting, code, slot| {
            let answer = expected_dequantize(setting, code, slot);
            if setting == [2, 1, 12, 2] && code == 1234 {
                slot[FLOAT] += 1;
            }
            answer
        },
    ),
    dequantizes("a product with the reciprocal", |setting, code, slot| {
        divided(setting, code, slot, line, |p, q| p * (1.0 / q))
    }),
    dequantizes("floats rounded towards zero", |setting, code, slot| {
        divided(setting, code, slot, line, |p, q| {
            let nearest = p / q;
            let too_far = f64::from(nearest).abs() * f64::from(q) > f64::from(p).abs();
            f32::from_bits(nearest.to_bits() - u32::from(too_far))
        })
    }),
    dequantizes(
        "128 as the base of full-range difference",
        |setting, code, slot| divided(setting, code, slot, line_with_base_128, |p, q| p / q),
    ),
    dequantizes(
        "the older full range for the full",
        |setting, code, slot| divided(setting, code, slot, older_line, |p, q| p / q),
    ),
    dequantizes("full range for the older", |setting, code, slot| {
        divided(setting, code, slot, newer_line, |p, q| p / q)
    }),
    dequantizes(
        "128 as the base of older differences",
        |setting, code, slot| divided(setting, code, slot, older_line_with_base_128, |p, q| p / q),
    ),
    dequantizes(
        "older differences without their half",
        |setting, code, slot| divided(setting, code, slot, older_line_without_half, |p, q| p / q),
    ),
    dequantizes("4093 to 4095 decoded as 4092", |setting, code, slot| {
        let code = match (setting, code) {
            ([_, 3, 12, _], 4093..=4095) => 4092,
            _ => code,
        };
        expected_dequantize(setting, code, slot)
    }),
    dequantizes("4093 to 4095 refused", |setting, code, slot| {
        match (
            expected_dequantize(setting, code, &mut slot.clone()),
            setting,
        ) {
            (0.., [_, 3, 12, _]) if code > 4092 => refused(Refusal::CodeTooHigh),
            _ => expected_dequantize(setting, code, slot),
        }
    }),
    dequantizes(
        "narrow codes beyond the ends decoded as the nearer",
        |setting, code, slot| {
            let [_, range, depth, _] = setting;
            expected_dequantize(setting, within_the_ends(range, depth, code), slot)
        },
    ),
    dequantizes(
        "narrow codes beyond the ends refused",
        |setting, code, slot| {
            let [_, range, depth, _] = setting;
            match expected_dequantize(setting, code, &mut slot.clone()) {
                0.. if within_the_ends(range, depth, code) != code => refused(Refusal::CodeTooHigh),
                _ => expected_dequantize(setting, code, slot),
            }
        },
    ),
    dequantizes(
        "the kinds exchanged",
        |setting, code, slot| match expected_dequantize(setting, code, slot) {
            kind @ 0.. => 1 - kind,
            refusal => refusal,
        },
    ),
    dequantizes("G' and B' taken for differences", |setting, code, slot| {
        let [model, range, depth, channel] = setting;
        let model = if model == 1 { 2 } else { model };
        expected_dequantize([model, range, depth, channel], code, slot)
    }),
    dequantizes("eight bytes written", |setting, code, slot| {
        let answer = expected_dequantize(setting, code, slot);
        if answer >= 0 {
            slot[FLOAT + 1] = 0;
        }
        answer
    }),
    // Refusals.
    dequantizes("the float written on a refusal", |setting, code, slot| {
        slot[FLOAT] = 0;
        expected_dequantize(setting, code, slot)
    }),
    dequantizes(
        "13 for 14",
        |setting, code, slot| match expected_dequantize(setting, code, slot) {
            -14 => -13,
            answer => answer,
        },
    ),
    dequantizes("14 before 9", |setting, code, slot| match code {
        4096.. => refused(Refusal::CodeTooHigh),
        _ => expected_dequantize(setting, code, slot),
    }),
    quantizes("12 before 9", |setting, value, cuts| match value.is_nan() {
        true => refused(Refusal::NotANumber),
        false => expected_quantize(setting, value.to_bits(), cuts),
    }),
    quantizes("channel 3 taken for channel 0", |setting, value, cuts| {
        let [model, range, depth, channel] = setting;
        let channel = if channel == 3 { 0 } else { channel };
        expected_quantize([model, range, depth, channel], value.to_bits(), cuts)
    }),
    dequantizes("depth 16 taken for 12", |setting, code, slot| {
        let [model, range, depth, channel] = setting;
        let depth = if depth == 16 { 12 } else { depth };
        expected_dequantize([model, range, depth, channel], code, slot)
    }),
    quantizes("range 3 refused", |setting, value, cuts| match setting {
        [_, 3, _, _] => refused(Refusal::Outside),
        _ => expected_quantize(setting, value.to_bits(), cuts),
    }),
    dequantizes("range 3 refused", |setting, code, slot| match setting {
        [_, 3, _, _] => refused(Refusal::Outside),
        _ => expected_dequantize(setting, code, slot),
    }),
    quantizes("range 4 taken for 3", |setting, value, cuts| {
        let [model, range, depth, channel] = setting;
        let range = if range == 4 { 3 } else { range };
        expected_quantize([model, range, depth, channel], value.to_bits(), cuts)
    }),
    dequantizes("range 0 taken for 3", |setting, code, slot| {
        let [model, range, depth, channel] = setting;
        let range = if range == 0 { 3 } else { range };
        expected_dequantize([model, range, depth, channel], code, slot)
    }),
    dequantizes("range 3 taken for 2 at 8 bits", |setting, code, slot| {
        let [model, range, depth, channel] = setting;
        let range = if [range, depth] == [3, 8] { 2 } else { range };
        expected_dequantize([model, range, depth, channel], code, slot)
    }),
    dequantizes("model 3 with range 0 accepted", |setting, code, slot| {
        let [model, range, depth, channel] = setting;
        match [model, range] {
            [3, 0] => expected_dequantize([1, 1, depth, channel], code, slot),
            _ => expected_dequantize(setting, code, slot),
        }
    }),
    (
        "everything refused",
        Library {
            dequantize: |_, _, _| refused(Refusal::Outside),
            quantize: |_, _, _| refused(Refusal::Outside),
            ..REFERENCE
        },
    ),
];

const fn dequantizes(
    mistake: &'static str,
    dequantize: fn(Setting, u16, &mut Slot) -> i64,
) -> Wrong {
    let library = Library {
        dequantize,
        ..REFERENCE
    };
    (mistake, library)
}

pub const fn quantizes(mistake: &'static str, quantize: Quantize) -> Wrong {
    let library = Library {
        quantize,
        ..REFERENCE
    };
    (mistake, library)
}

fn line_with_base_128(scale: Scale) -> (i32, i32) {
    let (step, base) = line(scale);
    (step, if is_full_difference(scale) { 128 } else { base })
}

/// The full range as the older one.
fn older_line(scale: Scale) -> (i32, i32) {
    let (step, base) = line(scale);
    match scale.range {
        Range::Narrow | Range::LegacyFull => (step, base),
        Range::Full => (step + 1, base),
    }
}

/// The older full range as the newer one.
fn newer_line(scale: Scale) -> (i32, i32) {
    let (step, base) = line(scale);
    match scale.range {
        Range::Narrow | Range::Full => (step, base),
        Range::LegacyFull => (step - 1, base),
    }
}

fn older_line_with_base_128(scale: Scale) -> (i32, i32) {
    let (step, base) = line(scale);
    match (scale.range, scale.kind) {
        (Range::LegacyFull, Kind::Difference) => (step, 128),
        _ => (step, base),
    }
}

fn older_line_without_half(scale: Scale) -> (i32, i32) {
    let (step, base) = line(scale);
    match scale.range {
        Range::LegacyFull => (step, 0),
        _ => (step, base),
    }
}

fn is_full_difference(scale: Scale) -> bool {
    scale.range == Range::Full && scale.kind == Kind::Difference
}
