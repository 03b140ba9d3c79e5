//! Lines of codes between R'G'B' and Y'CbCr.

use crate::clamped::clamped;
use crate::ffi;
use crate::{Clamped, Refusal};

/// By which weights codes are converted, and between which ranges.
#[derive(Clone, Copy, Debug, PartialEq, Eq, Hash)]
pub struct Conversion {
    /// One of [`primaries`](crate::primaries).
    pub primaries: u8,
    /// Bits a code: 8, 10 or 12.
    pub depth: u8,
    /// The [`range`](crate::range) of the codes that are given.
    pub range_in: u8,
    /// The range of those that are made: the same, or any other.
    pub range_out: u8,
}

type Entry =
    unsafe extern "C" fn(u8, u8, u8, u8, *const u16, usize, *mut u16, usize, *mut u32) -> i64;

#[inline]
fn convert(
    entry: Entry,
    conversion: Conversion,
    codes: &[u16],
    out: &mut [u16],
) -> Result<Clamped, Refusal> {
    let Conversion {
        primaries,
        depth,
        range_in,
        range_out,
    } = conversion;
    // SAFETY: the pointers are to as many codes as the lengths say, and nothing else
    // uses the output, nor the number of cuts.
    clamped(|cuts| unsafe {
        entry(
            primaries,
            depth,
            range_in,
            range_out,
            codes.as_ptr(),
            codes.len(),
            out.as_mut_ptr(),
            out.len(),
            cuts,
        )
    })
}

/// Converts a line of codes of R', G' and B', three a point, to Y', Cb and Cr, into
/// a slice of the same length. Any code of the depth may be given; those made are
/// clamped as [`quantize`](crate::quantize) clamps them. Answers the count of points and
/// how many of the codes made were cut. Refused: 9, then 13, then 14.
///
/// ```
/// use imurraqi::{primaries, range, rgb_to_ycbcr, Clamped, Conversion};
///
/// let conversion = Conversion {
///     primaries: primaries::BT601_EBU,
///     depth: 10,
///     range_in: range::FULL,
///     range_out: range::NARROW,
/// };
/// let mut red = [0; 3];
/// let made = rgb_to_ycbcr(conversion, &[1023, 0, 0], &mut red);
/// assert_eq!(made, Ok(Clamped { points: 1, cuts: 0 }));
/// assert_eq!(red, [326, 361, 960]);
/// ```
#[inline]
pub fn rgb_to_ycbcr(
    conversion: Conversion,
    codes: &[u16],
    out: &mut [u16],
) -> Result<Clamped, Refusal> {
    convert(ffi::imurraqi_rgb_to_ycbcr, conversion, codes, out)
}

/// Converts a line of codes of Y', Cb and Cr to R', G' and B' likewise. Many a triple of
/// Y'CbCr codes is no color, and is cut. In full range a half is rounded away from 0, so
/// that -1/2 is cut; in legacy full range it is rounded up, to 0.
///
/// There and back, in ranges narrow and full: codes of R', G' and B' converted to Y', Cb
/// and Cr and back to the first range come back within 1, but full-range ones by way of
/// narrow Y', Cb and Cr within 2. Of narrow ones this holds from black to white: 16 to
/// 235, 64 to 940, 256 to 3760.
///
/// ```
/// use imurraqi::{range, ycbcr_to_rgb, Clamped, Conversion, Layout};
///
/// let layout = Layout::from_bytes([2, 2, 1, 10, 4, 0, 10, 20, 0]);
/// let to_full = layout.conversion(range::FULL);
/// let mut made = [0; 6];
/// let answer = ycbcr_to_rgb(to_full, &[326, 361, 960, 1019, 512, 512], &mut made);
/// assert_eq!(answer, Ok(Clamped { points: 2, cuts: 3 }));
/// assert_eq!(made, [1023, 0, 0, 1023, 1023, 1023]);
///
/// // R' = 350 + 1.402 (262 - 512) = -1/2.
/// let full = Conversion { range_in: range::FULL, ..to_full };
/// let older = range::LEGACY_FULL;
/// let early = Conversion { range_in: older, range_out: older, ..full };
/// for (conversion, cuts) in [(full, 1), (early, 0)] {
///     let answer = ycbcr_to_rgb(conversion, &[350, 512, 262], &mut made[..3]);
///     assert_eq!(answer, Ok(Clamped { points: 1, cuts }));
///     assert_eq!(made[..3], [0, 529, 350]);
/// }
/// ```
#[inline]
pub fn ycbcr_to_rgb(
    conversion: Conversion,
    codes: &[u16],
    out: &mut [u16],
) -> Result<Clamped, Refusal> {
    convert(ffi::imurraqi_ycbcr_to_rgb, conversion, codes, out)
}
