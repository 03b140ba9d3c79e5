//! Descriptors.

use imurraqi::ffi;

use crate::plain::layout::Numbers;

pub fn read(bytes: &[u8], layout: &mut Numbers) -> i64 {
    // SAFETY: the pointers are to as many bytes as the length says and to nine,
    // and nothing else uses the output.
    unsafe { ffi::imurraqi_descriptor_read(bytes.as_ptr(), bytes.len(), layout) }
}

pub fn write(layout: Numbers, out: &mut [u8]) -> i64 {
    // SAFETY: as for `read`.
    unsafe { ffi::imurraqi_descriptor_write(&layout, out.as_mut_ptr(), out.len()) }
}
