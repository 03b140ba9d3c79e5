//! Codes to floats and back: the paper's "Codes and floats".

use crate::float::{self, Value};
use crate::fraction::{Fraction, HALF};
use crate::refusal::Refusal;

#[derive(Clone, Copy, Debug, PartialEq, Eq)]
pub enum Range {
    Narrow,
    Full,
    /// The older full range, of BT.2100-0 and the old JFIF rule.
    LegacyFull,
}

#[derive(Clone, Copy, Debug, PartialEq, Eq)]
pub enum Kind {
    /// R', G', B' and Y'.
    Brightness,
    /// Cb and Cr.
    Difference,
}

/// What decides how codes and values correspond. There are eighteen.
#[derive(Clone, Copy, Debug, PartialEq, Eq)]
pub struct Scale {
    pub range: Range,
    /// The paper's n: 8, 10 or 12.
    pub depth: u32,
    pub kind: Kind,
}

/// A code, and whether it was cut: the rounded number lay outside the clamp's span. A
/// number that is an end of the span lies within it.
#[derive(Clone, Copy, Debug, PartialEq, Eq)]
pub struct Quantized {
    pub code: u16,
    pub cut: bool,
}

/// The kind of the channel and the bits of the float nearest the code's value.
pub fn dequantize(
    model: u8,
    range: u8,
    depth: u8,
    channel: u8,
    code: u16,
) -> Result<(Kind, u32), Refusal> {
    let scale = Scale::new(model, range, depth, channel)?;
    let code = i128::from(code);
    if code > m(scale.depth) {
        return Err(Refusal::CodeTooHigh);
    }
    Ok((scale.kind, float::nearest(scale.value(code))))
}

/// The code of the float with these bits, and whether it was cut.
pub fn quantize(
    model: u8,
    range: u8,
    depth: u8,
    channel: u8,
    bits: u32,
) -> Result<Quantized, Refusal> {
    quantized(Scale::new(model, range, depth, channel)?, bits)
}

/// The same on a scale. An infinity is the end on its side, and always cut.
pub fn quantized(scale: Scale, bits: u32) -> Result<Quantized, Refusal> {
    let infinite = |end| Quantized {
        code: scale.clamp(end),
        cut: true,
    };
    match float::value(bits) {
        Value::NotANumber => Err(Refusal::NotANumber),
        Value::PlusInfinity => Ok(infinite(scale.top())),
        Value::MinusInfinity => Ok(infinite(scale.bottom())),
        Value::Finite {
            significand,
            exponent,
        } => Ok(scale.clamped(scale.number(same_code_fraction(significand, exponent)))),
    }
}

impl Range {
    /// Every range with its number.
    pub const NUMBERED: [(u8, Range); 3] =
        [(1, Range::Narrow), (2, Range::Full), (3, Range::LegacyFull)];

    /// The range of a number.
    pub fn new(number: u8) -> Result<Range, Refusal> {
        Range::NUMBERED
            .into_iter()
            .find(|&(other, _)| other == number)
            .map(|(_, range)| range)
            .ok_or(Refusal::Outside)
    }
}

impl Scale {
    pub fn new(model: u8, range: u8, depth: u8, channel: u8) -> Result<Scale, Refusal> {
        let kind = match (model, channel) {
            (1, 0..=2) | (2, 0) => Kind::Brightness,
            (2, 1 | 2) => Kind::Difference,
            _ => return Err(Refusal::Outside),
        };
        let range = Range::new(range)?;
        if !matches!(depth, 8 | 10 | 12) {
            return Err(Refusal::Outside);
        }
        Ok(Scale {
            range,
            depth: u32::from(depth),
            kind,
        })
    }

    /// The exact value v of a code c.
    pub fn value(self, c: i128) -> Fraction {
        match (self.range, self.kind) {
            (Range::Narrow, Kind::Brightness) => narrow_brightness_value(c, self.depth),
            (Range::Narrow, Kind::Difference) => narrow_difference_value(c, self.depth),
            (Range::Full, Kind::Brightness) => full_brightness_value(c, self.depth),
            (Range::Full, Kind::Difference) => full_difference_value(c, self.depth),
            (Range::LegacyFull, Kind::Brightness) => legacy_brightness_value(c, self.depth),
            (Range::LegacyFull, Kind::Difference) => legacy_difference_value(c, self.depth),
        }
    }

    /// The whole number for a value v, before it is clamped to a code.
    pub fn number(self, v: Fraction) -> i128 {
        match (self.range, self.kind) {
            (Range::Narrow, Kind::Brightness) => narrow_brightness_number(v, self.depth),
            (Range::Narrow, Kind::Difference) => narrow_difference_number(v, self.depth),
            (Range::Full, Kind::Brightness) => full_brightness_number(v, self.depth),
            (Range::Full, Kind::Difference) => full_difference_number(v, self.depth),
            (Range::LegacyFull, Kind::Brightness) => legacy_brightness_number(v, self.depth),
            (Range::LegacyFull, Kind::Difference) => legacy_difference_number(v, self.depth),
        }
    }

    /// The code of a rounded number, and whether that lay outside the clamp's span.
    pub fn clamped(self, number: i128) -> Quantized {
        Quantized {
            code: self.clamp(number),
            cut: number < self.bottom() || self.top() < number,
        }
    }

    /// The nearest code to a whole number, of those that are ever made.
    fn clamp(self, number: i128) -> u16 {
        number.clamp(self.bottom(), self.top()) as u16
    }

    /// The least code that is ever made: 0, but s in narrow range, where the codes
    /// at both ends are kept for timing.
    pub fn bottom(self) -> i128 {
        match self.range {
            Range::Narrow => s(self.depth),
            Range::Full | Range::LegacyFull => 0,
        }
    }

    /// The greatest code that is ever made: 2^n - 1, but in narrow range 255s - 1,
    /// and in the older full range 255, 1023 and, at 12 bits, 4092.
    pub fn top(self) -> i128 {
        match (self.range, self.depth) {
            (Range::Narrow, n) => 255 * s(n) - 1,
            (Range::LegacyFull, 12) => 4092,
            (Range::Full | Range::LegacyFull, n) => m(n),
        }
    }
}

// From code to value, as the paper prints them.

/// v = (c - 16s)/(219s)
fn narrow_brightness_value(c: i128, n: u32) -> Fraction {
    Fraction::new(c - 16 * s(n), 219 * s(n))
}

/// v = (c - 128s)/(224s)
fn narrow_difference_value(c: i128, n: u32) -> Fraction {
    Fraction::new(c - 128 * s(n), 224 * s(n))
}

/// v = c/m
fn full_brightness_value(c: i128, n: u32) -> Fraction {
    Fraction::new(c, m(n))
}

/// v = (c - 2^(n-1))/m
fn full_difference_value(c: i128, n: u32) -> Fraction {
    Fraction::new(c - two_to(n - 1), m(n))
}

/// v = c * 2^-n
fn legacy_brightness_value(c: i128, n: u32) -> Fraction {
    Fraction::new(c, two_to(n))
}

/// v = c * 2^-n - 0.5
fn legacy_difference_value(c: i128, n: u32) -> Fraction {
    Fraction::new(c, two_to(n)) - HALF
}

// Back, as the paper prints them.

/// floor(1/2 + (219v + 16)s)
fn narrow_brightness_number(v: Fraction, n: u32) -> i128 {
    (HALF + (219 * v + 16) * s(n)).floor()
}

/// floor(1/2 + (224v + 128)s)
fn narrow_difference_number(v: Fraction, n: u32) -> i128 {
    (HALF + (224 * v + 128) * s(n)).floor()
}

/// Round(vm)
fn full_brightness_number(v: Fraction, n: u32) -> i128 {
    round(v * m(n))
}

/// Round(vm + 2^(n-1))
fn full_difference_number(v: Fraction, n: u32) -> i128 {
    round(v * m(n) + two_to(n - 1))
}

/// floor(1/2 + v * 2^n)
fn legacy_brightness_number(v: Fraction, n: u32) -> i128 {
    (HALF + v * two_to(n)).floor()
}

/// floor(1/2 + (v + 0.5) * 2^n)
fn legacy_difference_number(v: Fraction, n: u32) -> i128 {
    (HALF + (v + HALF) * two_to(n)).floor()
}

/// Round(x) = sign(x) times floor(|x| + 1/2)
fn round(x: Fraction) -> i128 {
    x.sign() * (x.abs() + HALF).floor()
}

/// s = 2^(n-8)
fn s(n: u32) -> i128 {
    two_to(n - 8)
}

/// m = 2^n - 1
pub fn m(n: u32) -> i128 {
    two_to(n) - 1
}

fn two_to(power: u32) -> i128 {
    1 << power
}

/// A finite float's value as a fraction, or, where that would not fit in 128
/// bits, another fraction that has the same code on every scale, and is cut there
/// if the float is.
///
/// Each of the six lines rounds w + kv, where w is a whole number from 0 to
/// 2^(n-1) and k is 219s, 224s, m or 2^n, which is from 219 to 4096.
///
/// - An exponent under -90 makes |v| < 2^24 * 2^-90, so |kv| < 1/2 by far, and
///   w + kv rounds to w. So does w + k * 0: zero has the same number, and so the
///   same code and the same cut.
/// - An exponent above 60 makes |v| >= 2^23 * 2^61, since only field 0 has
///   significands under 2^23. So |kv| is far above w + 2^n, and w + kv is
///   cut to the top or, if v is negative, to the bottom. The same holds of
///   2^60 in the place of |v|.
///
/// Between the two, the fraction is exactly the float. Its numerator is then
/// under 2^84, or its denominator at most 2^90, and the lines multiply by 2^16 at
/// most in all.
fn same_code_fraction(significand: i128, exponent: i32) -> Fraction {
    match exponent {
        ..=-91 => Fraction::new(0, 1),
        -90..=-1 => Fraction::new(significand, two_to(exponent.unsigned_abs())),
        0..=60 => Fraction::new(significand * two_to(exponent.unsigned_abs()), 1),
        61.. => Fraction::new(significand.signum() * two_to(60), 1),
    }
}

#[cfg(test)]
mod tests {
    use super::{dequantize, quantize, Kind, Quantized};
    use crate::refusal::Refusal;

    const INFINITY: u32 = 0x7f80_0000;
    const MINUS_INFINITY: u32 = 0xff80_0000;

    /// A code that was not cut, and one that was.
    fn whole(code: u16) -> Result<Quantized, Refusal> {
        Ok(Quantized { code, cut: false })
    }

    fn cut(code: u16) -> Result<Quantized, Refusal> {
        Ok(Quantized { code, cut: true })
    }

    #[test]
    fn the_ends_of_narrow_range() {
        for (depth, low, high) in [(8, 1, 254), (10, 4, 1019), (12, 16, 4079)] {
            for channel in [0, 1] {
                let back = |code| {
                    let (_, bits) = dequantize(2, 1, depth, channel, code).expect("a code");
                    quantize(2, 1, depth, channel, bits)
                };
                assert_eq!(quantize(2, 1, depth, channel, INFINITY), cut(high));
                assert_eq!(quantize(2, 1, depth, channel, MINUS_INFINITY), cut(low));
                for inside in [low, low + 1, high - 1, high] {
                    assert_eq!(back(inside), whole(inside));
                }
                for under in 0..low {
                    assert_eq!(back(under), cut(low));
                }
                for above in high + 1..1 << depth {
                    assert_eq!(back(above), cut(high));
                }
            }
        }
        // 16 + 219 * 1.25 = 289.75, and 128 - 224 * 0.75 = -40.
        assert_eq!(quantize(1, 1, 8, 0, 1.25_f32.to_bits()), cut(254));
        assert_eq!(quantize(2, 1, 8, 1, (-0.75_f32).to_bits()), cut(1));
        // 4 (128 + 224 * 145/256) = 1019.5, which is rounded up, past the end.
        let tie = 145.0_f32 / 256.0;
        assert_eq!(quantize(2, 1, 10, 1, tie.to_bits()), cut(1019));
        assert_eq!(
            quantize(2, 1, 10, 1, tie.next_down().to_bits()),
            whole(1019)
        );
        assert_eq!(dequantize(1, 1, 8, 0, 256), Err(Refusal::CodeTooHigh));
    }

    #[test]
    fn the_older_full_range() {
        // 200/256 is 0.78125, and 200/256 - 1/2 is 0.28125.
        let brightness = (Kind::Brightness, 0.78125_f32.to_bits());
        let difference = (Kind::Difference, 0.28125_f32.to_bits());
        assert_eq!(dequantize(2, 3, 8, 0, 200), Ok(brightness));
        assert_eq!(dequantize(2, 3, 8, 1, 200), Ok(difference));
        assert_eq!(quantize(2, 3, 8, 0, brightness.1), whole(200));
        assert_eq!(quantize(2, 3, 8, 1, difference.1), whole(200));
        // Half a code is rounded up: 1/512 is half of 1/256.
        let half = 1.0_f32 / 512.0;
        assert_eq!(quantize(1, 3, 8, 0, half.to_bits()), whole(1));
        assert_eq!(quantize(2, 3, 8, 2, (-0.5_f32).to_bits()), whole(0));
        // So -1/2 is 0, and not cut.
        assert_eq!(quantize(1, 3, 8, 0, (-half).to_bits()), whole(0));
        assert_eq!(quantize(1, 3, 8, 0, (-half).next_down().to_bits()), cut(0));
        assert_eq!(quantize(2, 4, 8, 2, 0), Err(Refusal::Outside));
    }

    #[test]
    fn the_top_of_the_older_full_range() {
        for (depth, top) in [(8, 255), (10, 1023), (12, 4092)] {
            assert_eq!(quantize(1, 3, depth, 0, 1.0_f32.to_bits()), cut(top));
            assert_eq!(quantize(2, 3, depth, 1, 0.5_f32.to_bits()), cut(top));
            assert_eq!(quantize(1, 3, depth, 2, INFINITY), cut(top));
        }
        for code in 4092..=4095_u16 {
            let value = f32::from(code) / 4096.0;
            let decoded = dequantize(1, 3, 12, 0, code);
            assert_eq!(decoded, Ok((Kind::Brightness, value.to_bits())));
            let back = if code > 4092 { cut } else { whole };
            assert_eq!(quantize(1, 3, 12, 0, value.to_bits()), back(4092));
        }
        assert_eq!(dequantize(1, 3, 12, 0, 4096), Err(Refusal::CodeTooHigh));
    }

    #[test]
    fn the_ends_of_full_range() {
        // M4 is 256, M5 is 1/2 rounded up, M6 is -63.75.
        assert_eq!(quantize(2, 2, 8, 1, 0.5_f32.to_bits()), cut(255));
        assert_eq!(quantize(2, 2, 8, 1, (-0.5_f32).to_bits()), whole(1));
        assert_eq!(quantize(1, 2, 8, 0, (-0.25_f32).to_bits()), cut(0));
        // 255 * 256/255 is 256; a float beside it is not far from there.
        assert_eq!(
            quantize(1, 2, 8, 0, (256.0_f32 / 255.0).to_bits()),
            cut(255)
        );
        assert_eq!(quantize(1, 2, 8, 0, 1.0_f32.to_bits()), whole(255));
        assert_eq!(quantize(1, 2, 8, 0, 0), whole(0));
    }
}
