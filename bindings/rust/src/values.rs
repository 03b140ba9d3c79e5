//! Single values.

use crate::ffi;
use crate::refusal::answer;
use crate::Refusal;

/// One channel: what its codes stand for.
#[derive(Clone, Copy, Debug, PartialEq, Eq, Hash)]
pub struct Setting {
    /// One of [`model`](crate::model).
    pub model: u8,
    /// One of [`range`](crate::range).
    pub range: u8,
    /// Bits a code: 8, 10 or 12.
    pub depth: u8,
    /// 0, 1 or 2: R', G' and B', or Y', Cb and Cr.
    pub channel: u8,
}

/// The value of a code, under the name of its kind.
#[derive(Clone, Copy, Debug, PartialEq)]
pub enum Dequantized {
    /// R', G', B' or Y'.
    Brightness(f32),
    /// Cb or Cr.
    Difference(f32),
}

impl Dequantized {
    /// The value alone.
    #[inline]
    pub const fn value(self) -> f32 {
        match self {
            Dequantized::Brightness(value) | Dequantized::Difference(value) => value,
        }
    }
}

/// The code of a float, and whether the float was cut.
#[derive(Clone, Copy, Debug, PartialEq, Eq, Hash)]
pub struct Quantized {
    /// The code, within the ends of those that the range makes.
    pub code: u16,
    /// Whether the rounded number lay beyond the ends, so that the clamp moved it. An
    /// infinity is always cut.
    pub cut: bool,
}

/// The float of a code: the f32 nearest to the fraction that it stands for. Every code
/// of the depth stands for one, those that its range never makes too. Refused: 9, then
/// 14.
///
/// ```
/// use imurraqi::{dequantize, model, range, Dequantized, Refusal, Setting};
///
/// let cb = Setting { model: model::YCBCR, range: range::NARROW, depth: 10, channel: 1 };
/// assert_eq!(dequantize(cb, 960), Ok(Dequantized::Difference(0.5)));
/// assert_eq!(dequantize(cb, 1023), Ok(Dequantized::Difference(511.0 / 896.0)));
/// assert_eq!(dequantize(cb, 1024), Err(Refusal::CODE_TOO_HIGH));
/// let early = Setting { range: range::LEGACY_FULL, depth: 8, ..cb };
/// assert_eq!(dequantize(early, 64), Ok(Dequantized::Difference(-0.25)));
/// ```
#[inline]
pub fn dequantize(setting: Setting, code: u16) -> Result<Dequantized, Refusal> {
    let Setting {
        model,
        range,
        depth,
        channel,
    } = setting;
    let mut value = 0.0;
    // SAFETY: nothing else uses the value.
    let kind = answer(unsafe {
        ffi::imurraqi_dequantize(model, range, depth, channel, code, &mut value)
    })?;
    Ok(match kind {
        0 => Dequantized::Brightness(value),
        _ => Dequantized::Difference(value),
    })
}

/// The code of a float, worked out from its exact value and clamped to the codes that
/// its range makes. Narrow range makes 1 to 254, 4 to 1019 and 16 to 4079 at 8, 10 and
/// 12 bits, since video keeps the codes beyond for timing. Legacy full range makes none
/// above 4092 at 12 bits. Infinities give the ends. What was clamped is said to be cut,
/// but not a number that is an end. Refused: 9, then 12.
///
/// ```
/// use imurraqi::{model, quantize, range, Quantized, Refusal, Setting};
///
/// let cb = Setting { model: model::YCBCR, range: range::NARROW, depth: 10, channel: 1 };
/// assert_eq!(quantize(cb, 0.5), Ok(Quantized { code: 960, cut: false }));
/// // An end, and beyond it.
/// assert_eq!(quantize(cb, 507.0 / 896.0), Ok(Quantized { code: 1019, cut: false }));
/// assert_eq!(quantize(cb, 511.0 / 896.0), Ok(Quantized { code: 1019, cut: true }));
/// assert_eq!(quantize(cb, f32::NEG_INFINITY), Ok(Quantized { code: 4, cut: true }));
/// assert_eq!(quantize(cb, f32::NAN), Err(Refusal::NOT_A_NUMBER));
/// let early = Setting { range: range::LEGACY_FULL, depth: 12, ..cb };
/// assert_eq!(quantize(early, 0.5), Ok(Quantized { code: 4092, cut: true }));
/// ```
#[inline]
pub fn quantize(setting: Setting, value: f32) -> Result<Quantized, Refusal> {
    let Setting {
        model,
        range,
        depth,
        channel,
    } = setting;
    let mut cuts = 0;
    // SAFETY: nothing else uses the number of cuts.
    let code =
        answer(unsafe { ffi::imurraqi_quantize(model, range, depth, channel, value, &mut cuts) })?;
    Ok(Quantized {
        // A code has 12 bits at most.
        code: code as u16,
        cut: cuts != 0,
    })
}
