//! Cards and stacks.

use imurraqi::ffi;

use crate::plain::cards::{Facts, Numbered};
use crate::plain::layout::Numbers;

pub fn read(card: &[u8], edition: u8, layout: &mut Numbers, numbers: &mut Numbered) -> i64 {
    // SAFETY: the pointers are to as many bytes as the length says, to nine and to
    // four numbers, and nothing else uses the outputs.
    unsafe { ffi::imurraqi_card_read(card.as_ptr(), card.len(), edition, layout, numbers) }
}

/// The facts stand where they are: a copy made here would be read back before it is
/// stored, which costs some five nanoseconds that are not the library's.
pub fn write(edition: u8, facts: &Facts, out: &mut [u8]) -> i64 {
    // SAFETY: as for `read`.
    unsafe {
        ffi::imurraqi_card_write(
            edition,
            &facts.layout,
            facts.width,
            facts.height,
            facts.item,
            facts.access,
            out.as_mut_ptr(),
            out.len(),
        )
    }
}

pub fn rewrite(card: &[u8], edition: u8, out: &mut [u8]) -> i64 {
    // SAFETY: as for `read`.
    unsafe {
        ffi::imurraqi_card_rewrite(
            card.as_ptr(),
            card.len(),
            edition,
            out.as_mut_ptr(),
            out.len(),
        )
    }
}

pub fn find(stack: &[u8], edition: u8, item: u64) -> i64 {
    // SAFETY: as for `read`.
    unsafe { ffi::imurraqi_stack_find(stack.as_ptr(), stack.len(), edition, item) }
}
