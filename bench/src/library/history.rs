//! The history of one card.

use imurraqi::ffi;

use crate::plain::history::{History, Replayed};

pub fn replay(history: &History, replayed: &mut Replayed) -> i64 {
    // SAFETY: the pointers are to as many elements as the lengths say, nine for
    // the layout, fourteen and two for the last, and nothing else uses the outputs.
    unsafe {
        ffi::imurraqi_replay(
            history.first,
            &history.facts.layout,
            history.facts.width,
            history.facts.height,
            history.facts.item,
            history.facts.access,
            replayed.card.as_mut_ptr(),
            replayed.card.len(),
            history.editions.as_ptr(),
            history.editions.len(),
            history.lengths.as_ptr(),
            history.lengths.len(),
            replayed.outputs.as_mut_ptr(),
            replayed.outputs.len(),
            replayed.answers.as_mut_ptr(),
            replayed.answers.len(),
            history.last,
            history.packed.as_ptr(),
            history.packed.len(),
            replayed.values.as_mut_ptr(),
            replayed.values.len(),
            &mut replayed.read,
            &mut replayed.decoded,
        )
    }
}
