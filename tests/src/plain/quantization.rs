//! Values in float arithmetic.

use reference::quantization::{Kind, Range, Scale};
use reference::refusal::Refusal;

use crate::library::{Setting, Slot, CUTS, FLOAT};
use crate::quantization::{refused, scale};

/// A scale as a straight line: a code is the base plus the value times the step.
pub type Line = fn(Scale) -> (i32, i32);

pub fn line(scale: Scale) -> (i32, i32) {
    let n = scale.depth;
    let s = 1 << (n - 8);
    match (scale.range, scale.kind) {
        (Range::Narrow, Kind::Brightness) => (219 * s, 16 * s),
        (Range::Narrow, Kind::Difference) => (224 * s, 128 * s),
        (Range::Full, Kind::Brightness) => ((1 << n) - 1, 0),
        (Range::Full, Kind::Difference) => ((1 << n) - 1, 1 << (n - 1)),
        (Range::LegacyFull, Kind::Brightness) => (1 << n, 0),
        (Range::LegacyFull, Kind::Difference) => (1 << n, 1 << (n - 1)),
    }
}

/// The least and the greatest code that a scale makes.
pub type Ends = fn(Scale) -> [i64; 2];

/// As the requests print them.
pub fn ends(scale: Scale) -> [i64; 2] {
    match (scale.range, scale.depth) {
        (Range::Narrow, 8) => [1, 254],
        (Range::Narrow, 10) => [4, 1019],
        (Range::Narrow, _) => [16, 4079],
        (Range::LegacyFull, 12) => [0, 4092],
        (Range::Full | Range::LegacyFull, _) => all_codes(scale),
    }
}

/// The ends of all codes of the depth.
pub fn all_codes(scale: Scale) -> [i64; 2] {
    [0, (1 << scale.depth) - 1]
}

/// Whether a rounded number was cut on a scale, where the ends are these.
pub type Cut = fn(Scale, i128, [i64; 2]) -> bool;

pub fn outside(_: Scale, number: i128, ends: [i64; 2]) -> bool {
    let [least, greatest] = ends.map(i128::from);
    number < least || greatest < number
}

/// How many places of a line were cut, of which this says whether each was.
pub type Count = fn(&[bool]) -> usize;

pub fn all(cut: &[bool]) -> usize {
    cut.iter().filter(|&&cut| cut).count()
}

/// What a code comes back as when it is decoded and encoded, or converted to grey:
/// itself, or the nearest code that its scale makes.
pub fn returned(scale: Scale, code: u16) -> u16 {
    let [least, greatest] = ends(scale);
    i64::from(code).clamp(least, greatest) as u16
}

/// Dequantizes with the given line and division.
pub fn divided(
    setting: Setting,
    code: u16,
    slot: &mut Slot,
    line: Line,
    divide: fn(f32, f32) -> f32,
) -> i64 {
    let scale = match scale(setting) {
        Ok(scale) => scale,
        Err(refusal) => return refused(refusal),
    };
    if code >> scale.depth != 0 {
        return refused(Refusal::CodeTooHigh);
    }
    let (step, base) = line(scale);
    let above_base = i32::from(code) - base;
    slot[FLOAT] = divide(above_base as f32, step as f32).to_bits();
    i64::from(scale.kind == Kind::Difference)
}

/// Quantizes with the given line and rounding.
pub fn rounded(
    setting: Setting,
    value: f32,
    cuts: &mut Slot,
    line: Line,
    round: fn(f64) -> f64,
) -> i64 {
    numbered(setting, value, cuts, |scale, v| {
        round(on_line(line(scale), v))
    })
}

/// The whole number is the rule's; refusals and clamping are right.
pub fn numbered(
    setting: Setting,
    value: f32,
    cuts: &mut Slot,
    rule: impl Fn(Scale, f32) -> f64,
) -> i64 {
    clamped(setting, value, cuts, rule, ends)
}

/// Quantizes with the given rule for the whole number and the given ends.
pub fn clamped(
    setting: Setting,
    value: f32,
    cuts: &mut Slot,
    rule: impl Fn(Scale, f32) -> f64,
    ends: Ends,
) -> i64 {
    cut(setting, value, cuts, rule, ends, outside)
}

/// And with the given rule for what is cut.
pub fn cut(
    setting: Setting,
    value: f32,
    cuts: &mut Slot,
    rule: impl Fn(Scale, f32) -> f64,
    ends: Ends,
    cut: Cut,
) -> i64 {
    match scale(setting) {
        Err(refusal) => refused(refusal),
        Ok(_) if value.is_nan() => refused(Refusal::NotANumber),
        Ok(scale) => {
            let [least, greatest] = ends(scale);
            // A float beyond 64 bits, infinities too, becomes the last number there.
            let number = rule(scale, value) as i64;
            cuts[CUTS] = cut(scale, number.into(), [least, greatest]).into();
            number.clamp(least, greatest)
        }
    }
}

/// The whole number of a value, as it is before it is clamped.
pub fn right_number(scale: Scale, value: f32) -> f64 {
    half_up(on_line(line(scale), value))
}

/// The number on a line, before rounding.
///
/// It is exact wherever rounding matters. The product has at most 24 + 13 bits. A
/// float of 2^-17 or above has no bit under 2^-40, so with a base under 2^12 the
/// sum has at most 52. A smaller float moves the base by less than a half.
pub fn on_line((step, base): (i32, i32), value: f32) -> f64 {
    f64::from(value) * f64::from(step) + f64::from(base)
}

/// In full range too: a half under zero, which would be rounded down there, is cut either
/// way but for -1/2, and no float is that.
pub fn half_up(x: f64) -> f64 {
    (x + 0.5).floor()
}
