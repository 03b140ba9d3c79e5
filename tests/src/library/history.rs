//! The function of the C interface on the history of a card.

use imurraqi::ffi;
use reference::card::Facts;

use crate::guarded::Guarded;

use super::entry::Entry;
use super::memory::Memory;

/// What a replay is given, and then leaves. All memory lies among guards.
#[derive(Clone, PartialEq)]
pub struct Replaying {
    pub first: u8,
    pub facts: Facts,
    pub layout: Guarded<u8>,
    pub card: Guarded<u8>,
    pub editions: Guarded<u8>,
    pub lengths: Guarded<u64>,
    pub outputs: Guarded<u8>,
    pub answers: Guarded<u8>,
    pub last: u8,
    pub packed: Guarded<u8>,
    /// The bits of floats.
    pub values: Guarded<u32>,
    pub read: Guarded<u64>,
    pub decoded: Guarded<u64>,
}

pub type Replay = fn(&mut Replaying) -> i64;

pub fn replay<M: Memory>(asked: &mut Replaying) -> i64 {
    let mut memory = M::of(Entry::Replay);
    // SAFETY: the pointers are to as many elements as the lengths say, nine for
    // the layout, fourteen and two for the last, and nothing else uses them.
    let answer = unsafe {
        ffi::imurraqi_replay(
            asked.first,
            memory.kept(asked.layout.whole()).cast(),
            asked.facts.width,
            asked.facts.height,
            asked.facts.item,
            asked.facts.access,
            memory.output(asked.card.whole()),
            asked.card.length(),
            memory.kept(asked.editions.whole()),
            asked.editions.length(),
            memory.kept(asked.lengths.whole()).cast(),
            asked.lengths.length(),
            memory.output(asked.outputs.whole()),
            asked.outputs.length(),
            memory.output(asked.answers.whole()),
            asked.answers.length(),
            asked.last,
            memory.kept(asked.packed.whole()),
            asked.packed.length(),
            memory.output(asked.values.whole()).cast(),
            asked.values.length(),
            memory.output(asked.read.whole()).cast(),
            memory.output(asked.decoded.whole()).cast(),
        )
    };
    memory.answered(answer)
}
