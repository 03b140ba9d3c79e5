//! The field of one channel.

use imurraqi::ffi;

use crate::plain::layout::Numbers;

pub fn field_bytes(layout: Numbers, channel: u8, first: &mut u8) -> i64 {
    // SAFETY: the pointers are to nine bytes and to one, which nothing else uses.
    unsafe { ffi::imurraqi_field_bytes(&layout, channel, first) }
}

pub fn field_code(layout: Numbers, channel: u8, bytes: &[u8]) -> i64 {
    // SAFETY: the pointers are to nine bytes and to as many as the length says.
    unsafe { ffi::imurraqi_field_code(&layout, channel, bytes.as_ptr(), bytes.len()) }
}
