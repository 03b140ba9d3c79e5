//! Fields: one channel of one point.

use std::ops::Range;

use crate::ffi;
use crate::refusal::answer;
use crate::{Layout, Refusal};

/// The places in a point of the bytes that hold the field of a channel: one to three,
/// side by side. Refused: 9, for groups too.
///
/// ```
/// use imurraqi::{field_bytes, Layout, Refusal};
///
/// // Of four bytes a point, 10 bits each at bits 0, 10 and 20.
/// let layout = Layout::from_bytes([2, 2, 1, 10, 4, 0, 10, 20, 0]);
/// assert_eq!(field_bytes(layout, 0), Ok(0..2));
/// assert_eq!(field_bytes(layout, 1), Ok(1..3));
/// assert_eq!(field_bytes(layout, 2), Ok(2..4));
/// assert_eq!(field_bytes(layout, 3), Err(Refusal::OUTSIDE));
/// ```
#[inline]
pub fn field_bytes(layout: Layout, channel: u8) -> Result<Range<usize>, Refusal> {
    let mut first = 0;
    // SAFETY: nothing else uses the place of the first byte.
    let count =
        answer(unsafe { ffi::imurraqi_field_bytes(&layout.to_bytes(), channel, &mut first) })?;
    let first = usize::from(first);
    Ok(first..first + count)
}

/// The code of a channel, from only the bytes that hold its field, as [`field_bytes`]
/// tells them. Bits in them that are not the field's are not looked at. Refused: 9, for
/// groups too, then 13 for any other number of bytes.
///
/// ```
/// use imurraqi::{field_bytes, field_code, Layout, Refusal};
///
/// let layout = Layout::from_bytes([2, 2, 1, 10, 4, 0, 10, 20, 0]);
/// let point = [0xae, 0x00, 0x0f, 0x04];
/// assert_eq!(field_code(layout, 1, &point[field_bytes(layout, 1)?]), Ok(960));
/// assert_eq!(field_code(layout, 1, &[0x00, 0x0f]), Ok(960));
/// // What lies beside the field does not matter, but the number of bytes does.
/// assert_eq!(field_code(layout, 1, &[0x03, 0xff]), Ok(960));
/// assert_eq!(field_code(layout, 1, &point), Err(Refusal::WRONG_LINE_OR_OUTPUT));
/// # Ok::<(), Refusal>(())
/// ```
#[inline]
pub fn field_code(layout: Layout, channel: u8, bytes: &[u8]) -> Result<u16, Refusal> {
    // SAFETY: the pointer is to as many bytes as the length says.
    let code = answer(unsafe {
        ffi::imurraqi_field_code(&layout.to_bytes(), channel, bytes.as_ptr(), bytes.len())
    })?;
    // A code has 12 bits at most.
    Ok(code as u16)
}
