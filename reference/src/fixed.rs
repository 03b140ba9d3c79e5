//! The same codes in 64 bits, for going through all 2^32 floats of a scale.
//!
//! Values are held as whole numbers of 2^-40. Everything here is exact, and the
//! tests compare it with the fractions of `quantization`.

use crate::quantization::{Kind, Quantized, Range, Scale};

const POINT: u32 = 40;
const ONE: i64 = 1 << POINT;
const HALF: i64 = ONE / 2;

/// The code of the float with these bits, which must not be a not-a-number, and
/// whether it was cut.
///
/// The lines are the paper's, every term times 2^40. They fit in 64 bits: |v| is
/// at most 4 and no line multiplies it, or it and a half, by more than 4096, so all
/// stay under 2^55.
pub fn quantize(scale: Scale, bits: u32) -> Quantized {
    let v = same_code_value(bits);
    let n = scale.depth;
    let s = 1 << (n - 8);
    let m = (1 << n) - 1;
    let number = match (scale.range, scale.kind) {
        (Range::Narrow, Kind::Brightness) => floor(HALF + (219 * v + 16 * ONE) * s),
        (Range::Narrow, Kind::Difference) => floor(HALF + (224 * v + 128 * ONE) * s),
        (Range::Full, Kind::Brightness) => round(v * m),
        (Range::Full, Kind::Difference) => round(v * m + (ONE << (n - 1))),
        (Range::LegacyFull, Kind::Brightness) => floor(HALF + (v << n)),
        (Range::LegacyFull, Kind::Difference) => floor(HALF + ((v + HALF) << n)),
    };
    let (bottom, top) = match (scale.range, n) {
        (Range::Narrow, _) => (s, 255 * s - 1),
        (Range::LegacyFull, 12) => (0, 4092),
        (Range::Full | Range::LegacyFull, _) => (0, m),
    };
    Quantized {
        code: number.clamp(bottom, top) as u16,
        cut: number < bottom || top < number,
    }
}

/// v * 2^40, where v is the float's exact value if its magnitude is 2^-17 or
/// above and below 4, and else a value that has the same code on every scale and is
/// cut there if the float is.
///
/// Each line rounds a whole number w plus kv, where k is at most 4096.
///
/// - Fields up to 109 make |v| < 2^24 * 2^(109-150) = 2^-17, so |kv| < 1/2 and
///   w is the rounded number, as it is for zero.
/// - Fields from 129, infinity's too, make |v| >= 2^23 * 2^(129-150) = 4. There,
///   4 itself included, every line is beyond 0 .. 2^n - 1 and is cut to the
///   top or, if v is negative, to the bottom.
fn same_code_value(bits: u32) -> i64 {
    let field = bits >> 23 & 255;
    let fraction = i64::from(bits & 0x7f_ffff);
    let magnitude = match field {
        0..=109 => 0,
        // (2^23 + fraction) * 2^(field - 150), times 2^40.
        110..=128 => ((1 << 23) + fraction) << (field - 110),
        _ => 4 * ONE,
    };
    if bits >> 31 == 1 {
        -magnitude
    } else {
        magnitude
    }
}

/// The floor of x/2^40: a shift to the right of a signed number rounds down.
fn floor(x: i64) -> i64 {
    x >> POINT
}

/// Round of x/2^40.
fn round(x: i64) -> i64 {
    x.signum() * floor(x.abs() + HALF)
}
