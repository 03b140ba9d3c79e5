//! Descriptors.

use crate::ffi;
use crate::refusal::accepted;
use crate::{Layout, Refusal};

/// How many bytes a descriptor has.
pub const DESCRIPTOR_SIZE: usize = 76;

/// The layout that a descriptor tells, of points of their own. Refused: 1 to 6, in this
/// order.
///
/// ```
/// use imurraqi::{descriptor_read, descriptor_write, Layout, Refusal, DESCRIPTOR_SIZE};
///
/// let layout = Layout::from_bytes([2, 2, 1, 10, 4, 0, 10, 20, 0]);
/// let mut descriptor = [0; DESCRIPTOR_SIZE];
/// descriptor_write(layout, &mut descriptor)?;
/// assert_eq!(descriptor_read(&descriptor)?, layout);
/// assert_eq!(descriptor_read(&descriptor[1..]), Err(Refusal::WRONG_LENGTH));
/// # Ok::<(), Refusal>(())
/// ```
#[inline]
pub fn descriptor_read(bytes: &[u8]) -> Result<Layout, Refusal> {
    let mut layout = [0; Layout::SIZE];
    // SAFETY: the pointer is to as many bytes as the length says, and nothing else
    // uses the layout.
    accepted(unsafe { ffi::imurraqi_descriptor_read(bytes.as_ptr(), bytes.len(), &mut layout) })?;
    Ok(Layout::from_bytes(layout))
}

/// Writes the descriptor of a layout, [`DESCRIPTOR_SIZE`] bytes. Groups have none.
/// Refused: 9, for groups too, then 13.
///
/// ```
/// use imurraqi::{descriptor_write, Layout, Refusal, DESCRIPTOR_SIZE};
///
/// let mut descriptor = [0; DESCRIPTOR_SIZE];
/// let no_model = Layout::from_bytes([3, 2, 1, 10, 4, 0, 10, 20, 0]);
/// assert_eq!(descriptor_write(no_model, &mut descriptor), Err(Refusal::OUTSIDE));
/// let groups = Layout::from_bytes([2, 2, 1, 8, 4, 0, 0, 0, 1]);
/// assert_eq!(descriptor_write(groups, &mut descriptor), Err(Refusal::OUTSIDE));
/// assert_eq!(descriptor, [0; DESCRIPTOR_SIZE]);
/// ```
#[inline]
pub fn descriptor_write(layout: Layout, out: &mut [u8]) -> Result<(), Refusal> {
    // SAFETY: the pointer is to as many bytes as the length says, and nothing else
    // uses them.
    accepted(unsafe {
        ffi::imurraqi_descriptor_write(&layout.to_bytes(), out.as_mut_ptr(), out.len())
    })
}
