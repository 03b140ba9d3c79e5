//! One value in plain Rust.

use super::layout::Scale;
use super::lines;
use super::refusal::{CODE_TOO_HIGH, NOT_A_NUMBER, OUTSIDE};

/// Model, range, depth and channel.
pub type Setting = [u8; 4];

pub fn dequantize(setting: Setting, code: u16, value: &mut f32) -> i64 {
    let Some(scale) = scale(setting) else {
        return OUTSIDE;
    };
    let [_, _, depth, _] = setting;
    if code >> depth != 0 {
        return CODE_TOO_HIGH;
    }
    *value = lines::value(scale, code.into());
    difference(setting).into()
}

pub fn quantize(setting: Setting, value: f32, cuts: &mut u32) -> i64 {
    let Some(scale) = scale(setting) else {
        return OUTSIDE;
    };
    if value.is_nan() {
        return NOT_A_NUMBER;
    }
    let (code, cut) = lines::code(scale, value);
    *cuts = cut.into();
    code as i64
}

fn scale(setting: Setting) -> Option<Scale> {
    let [model, range, depth, channel] = setting;
    let inside = matches!(model, 1 | 2)
        && matches!(range, 1..=3)
        && matches!(depth, 8 | 10 | 12)
        && channel <= 2;
    inside.then(|| Scale::new(range, depth, difference(setting)))
}

fn difference([model, _, _, channel]: Setting) -> bool {
    model == 2 && channel > 0
}
