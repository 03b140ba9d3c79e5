//! Lines and points.

use crate::clamped::clamped;
use crate::ffi;
use crate::refusal::{accepted, answer};
use crate::{Clamped, Layout, Refusal};

/// The most points of a line.
pub const MOST_POINTS: usize = 4096;

/// The C function of a line: a layout, what is given, and what is made.
type Entry<I, O> =
    unsafe extern "C" fn(*const [u8; Layout::SIZE], *const I, usize, *mut O, usize) -> i64;

#[inline]
fn line<I, O>(
    entry: Entry<I, O>,
    layout: Layout,
    given: &[I],
    out: &mut [O],
) -> Result<usize, Refusal> {
    // SAFETY: the pointers are to as many elements as the lengths say, and nothing
    // else uses the output.
    answer(unsafe {
        entry(
            &layout.to_bytes(),
            given.as_ptr(),
            given.len(),
            out.as_mut_ptr(),
            out.len(),
        )
    })
}

/// One point's three floats in channel order, as of a line of one point.
/// Refused: 9, for groups too, then 13.
///
/// ```
/// use imurraqi::{decode_point, Layout, Refusal};
///
/// let layout = Layout::from_bytes([2, 2, 1, 10, 4, 0, 10, 20, 0]);
/// let point = [0xae, 0x00, 0x0f, 0x04];
/// assert_eq!(decode_point(layout, &point), Ok([0.12557077, 0.5, -0.5]));
/// assert_eq!(decode_point(layout, &point[1..]), Err(Refusal::WRONG_LINE_OR_OUTPUT));
/// ```
#[inline]
pub fn decode_point(layout: Layout, bytes: &[u8]) -> Result<[f32; 3], Refusal> {
    let mut point = [0.0; 3];
    // SAFETY: the pointer is to as many bytes as the length says, and nothing else
    // uses the point.
    accepted(unsafe {
        let layout = layout.to_bytes();
        ffi::imurraqi_decode_point(&layout, bytes.as_ptr(), bytes.len(), &mut point)
    })?;
    Ok(point)
}

/// The floats of a line of packed points or groups, three a point in channel order, each
/// that of [`dequantize`](crate::dequantize): every code is taken. Both points of a group
/// have its Cb and Cr. Answers the count of points, two a group. Refused: 9, then 13.
///
/// ```
/// use imurraqi::{decode_line, Layout};
///
/// let layout = Layout::from_bytes([2, 2, 1, 10, 4, 0, 10, 20, 0]);
/// let mut values = [0.0; 3];
/// assert_eq!(decode_line(layout, &[0xae, 0x00, 0x0f, 0x04], &mut values), Ok(1));
/// assert_eq!(values, [0.12557077, 0.5, -0.5]);
///
/// // A group: Cb 240, Y' 235, Cr 16, Y' 16.
/// let groups = Layout::from_bytes([2, 2, 1, 8, 4, 0, 0, 0, 1]);
/// let mut values = [0.0; 6];
/// assert_eq!(decode_line(groups, &[240, 235, 16, 16], &mut values), Ok(2));
/// assert_eq!(values, [1.0, 0.5, -0.5, 0.0, 0.5, -0.5]);
/// ```
#[inline]
pub fn decode_line(layout: Layout, packed: &[u8], out: &mut [f32]) -> Result<usize, Refusal> {
    line(ffi::imurraqi_decode_line, layout, packed, out)
}

/// Encodes one point's three floats, as a line of one point, and tells how many of them
/// were cut. Refused: 9, for groups too, then 13, then 12.
///
/// ```
/// use imurraqi::{encode_point, Layout, Refusal};
///
/// let layout = Layout::from_bytes([2, 2, 1, 10, 4, 0, 10, 20, 0]);
/// let mut point = [0; 4];
/// encode_point(layout, [0.12557077, 0.5, -0.5], &mut point)?;
/// assert_eq!(point, [0xae, 0x00, 0x0f, 0x04]);
/// assert_eq!(encode_point(layout, [1.0, 2.0, f32::NEG_INFINITY], &mut point)?.cuts, 2);
/// # Ok::<(), Refusal>(())
/// ```
#[inline]
pub fn encode_point(layout: Layout, point: [f32; 3], out: &mut [u8]) -> Result<Clamped, Refusal> {
    let [first, second, third] = point;
    // SAFETY: the pointer is to as many bytes as the length says, and nothing else
    // uses them, nor the number of cuts.
    clamped(|cuts| unsafe {
        ffi::imurraqi_encode_point(
            &layout.to_bytes(),
            first,
            second,
            third,
            out.as_mut_ptr(),
            out.len(),
            cuts,
        )
    })
}

/// Encodes a line of floats, three a point in channel order, to packed points or groups,
/// each float as the code that [`quantize`](crate::quantize) answers, and cut where that
/// says so. A group takes Cb and Cr of its first point; those of the second are not looked
/// at, and may be not-a-number. Answers the count of points and the number of cuts.
/// Refused: 9, then of groups 16 for an odd count of whole points, then 13, then 12.
///
/// ```
/// use imurraqi::{encode_line, Clamped, Layout, Refusal};
///
/// let layout = Layout::from_bytes([2, 2, 1, 10, 4, 0, 10, 20, 0]);
/// let mut packed = [0; 8];
/// let not_a_number = [0.0, 0.0, 0.0, 0.0, f32::NAN, 0.0];
/// assert_eq!(encode_line(layout, &not_a_number, &mut packed), Err(Refusal::NOT_A_NUMBER));
/// // The last brightness, 4 (16 + 219 * 1.25) = 1159, is beyond 1019.
/// let values = [0.12557077, 0.5, -0.5, 1.25, 0.5, -0.5];
/// let encoded = encode_line(layout, &values, &mut packed);
/// assert_eq!(encoded, Ok(Clamped { points: 2, cuts: 1 }));
/// assert_eq!(packed, [0xae, 0x00, 0x0f, 0x04, 0xfb, 0x03, 0x0f, 0x04]);
///
/// // Two points are a group, and one is none.
/// let groups = Layout::from_bytes([2, 2, 1, 8, 4, 0, 0, 0, 1]);
/// let values = [1.0, 0.5, -0.5, 0.0, f32::NAN, f32::INFINITY];
/// let mut group = [0; 4];
/// let encoded = encode_line(groups, &values, &mut group);
/// assert_eq!(encoded, Ok(Clamped { points: 2, cuts: 0 }));
/// assert_eq!(group, [240, 235, 16, 16]);
/// assert_eq!(encode_line(groups, &values[..3], &mut group), Err(Refusal::ODD_COUNT));
/// ```
#[inline]
pub fn encode_line(layout: Layout, values: &[f32], out: &mut [u8]) -> Result<Clamped, Refusal> {
    // SAFETY: the pointers are to as many elements as the lengths say, and nothing
    // else uses the output, nor the number of cuts.
    clamped(|cuts| unsafe {
        ffi::imurraqi_encode_line(
            &layout.to_bytes(),
            values.as_ptr(),
            values.len(),
            out.as_mut_ptr(),
            out.len(),
            cuts,
        )
    })
}

/// The codes of a line of packed points or groups, three a point in channel order. Both
/// points of a group have its Cb and Cr. Answers the count of points, two a group.
/// Refused: 9, then 13.
///
/// ```
/// use imurraqi::{unpack_line, Layout, Refusal, MOST_POINTS};
///
/// let layout = Layout::from_bytes([2, 2, 1, 10, 4, 0, 10, 20, 0]);
/// let mut codes = [0; 3];
/// assert_eq!(unpack_line(layout, &[0xae, 0x00, 0x0f, 0x04], &mut codes), Ok(1));
/// assert_eq!(codes, [174, 960, 64]);
///
/// const POINTS: usize = MOST_POINTS + 1;
/// let too_long = unpack_line(layout, &[0; 4 * POINTS], &mut [0; 3 * POINTS]);
/// assert_eq!(too_long, Err(Refusal::WRONG_LINE_OR_OUTPUT));
///
/// // A group: Cb 85, Y' 77, Cr 255, Y' 150.
/// let groups = Layout::from_bytes([2, 2, 2, 8, 4, 0, 0, 0, 1]);
/// let mut codes = [0; 6];
/// assert_eq!(unpack_line(groups, &[85, 77, 255, 150], &mut codes), Ok(2));
/// assert_eq!(codes, [77, 85, 255, 150, 85, 255]);
/// ```
#[inline]
pub fn unpack_line(layout: Layout, packed: &[u8], out: &mut [u16]) -> Result<usize, Refusal> {
    line(ffi::imurraqi_unpack_line, layout, packed, out)
}

/// Packs a line of codes, three a point in channel order, to points or groups; unused bits
/// are zero. Codes are packed as they are: none is clamped, not even in narrow range. A
/// group takes Cb and Cr of its first point; those of the second are not looked at, and
/// may be any. Answers the count of points. Refused: 9, then of groups 16 for an odd
/// count of whole points, then 13, then 14.
///
/// ```
/// use imurraqi::{encode_point, pack_line, Layout, Refusal, MOST_POINTS};
///
/// let layout = Layout::from_bytes([2, 2, 1, 10, 4, 0, 10, 20, 0]);
/// let mut packed = [0; 4 * MOST_POINTS];
/// let codes = [174, 960, 64].repeat(MOST_POINTS);
/// assert_eq!(pack_line(layout, &codes, &mut packed), Ok(MOST_POINTS));
/// assert_eq!(packed[..4], [0xae, 0x00, 0x0f, 0x04]);
///
/// // Codes that encoding never makes, and what it makes.
/// let mut point = [0; 4];
/// pack_line(layout, &[1023, 0, 1023], &mut point)?;
/// assert_eq!(point, [0xff, 0x03, 0xf0, 0x3f]);
/// assert_eq!(encode_point(layout, [2.0, -1.0, f32::INFINITY], &mut point)?.cuts, 3);
/// assert_eq!(point, [0xfb, 0x13, 0xb0, 0x3f]);
///
/// let groups = Layout::from_bytes([2, 2, 2, 8, 4, 0, 0, 0, 1]);
/// assert_eq!(pack_line(groups, &[77, 85, 255, 150, 999, 0], &mut point), Ok(2));
/// assert_eq!(point, [85, 77, 255, 150]);
/// # Ok::<(), Refusal>(())
/// ```
#[inline]
pub fn pack_line(layout: Layout, codes: &[u16], out: &mut [u8]) -> Result<usize, Refusal> {
    line(ffi::imurraqi_pack_line, layout, codes, out)
}
