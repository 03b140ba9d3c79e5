//! The functions of the C interface on a channel's field.

use imurraqi::ffi;

use crate::guarded::Guarded;

use super::entry::Entry;
use super::memory::Memory;
use super::Layout;

pub fn field_bytes<M: Memory>(layout: Layout, channel: u8, first: &mut Guarded<u8>) -> i64 {
    assert_eq!(first.length(), 1);
    let mut memory = M::of(Entry::FieldBytes);
    // SAFETY: the pointers are to nine bytes and to one, and nothing else uses the
    // output.
    let answer = unsafe {
        ffi::imurraqi_field_bytes(
            memory.input(&layout).cast(),
            channel,
            memory.output(first.whole()),
        )
    };
    memory.answered(answer)
}

pub fn field_code<M: Memory>(layout: Layout, channel: u8, bytes: &[u8]) -> i64 {
    let mut memory = M::of(Entry::FieldCode);
    // SAFETY: the pointers are to nine bytes and to as many as the length says.
    let answer = unsafe {
        ffi::imurraqi_field_code(
            memory.input(&layout).cast(),
            channel,
            memory.input(bytes),
            bytes.len(),
        )
    };
    memory.answered(answer)
}
