//! The functions of the C interface on cards and stacks.

use imurraqi::ffi;
use reference::card::Facts;

use crate::guarded::Guarded;

use super::entry::Entry;
use super::memory::Memory;
use super::Layout;

/// What the functions on cards share: lent bytes lie among guards and must be left
/// as they are.
pub type CardRead = fn(&mut Guarded<u8>, u8, &mut Told) -> i64;
pub type CardWrite = fn(u8, Facts, &mut Guarded<u8>) -> i64;
pub type CardRewrite = fn(&mut Guarded<u8>, u8, &mut Guarded<u8>) -> i64;
pub type StackFind = fn(&mut Guarded<u8>, u8, u64) -> i64;

/// The memory that a reading fills: the numbers of a layout; width, height, item
/// and access.
#[derive(Clone, PartialEq)]
pub struct Told {
    pub layout: Guarded<u8>,
    pub facts: Guarded<u64>,
}

impl Told {
    pub fn new() -> Told {
        Told {
            layout: Guarded::new(size_of::<Layout>()),
            facts: Guarded::new(4),
        }
    }

    pub fn store(&mut self, facts: Facts) {
        self.layout.output().copy_from_slice(&facts.layout);
        self.facts.output().copy_from_slice(&[
            facts.width.into(),
            facts.height.into(),
            facts.item,
            facts.access.into(),
        ]);
    }
}

/// An answer that no function gives, for a layout that is changed where it is lent.
const LAYOUT_CHANGED: i64 = i64::MIN;

pub fn card_read<M: Memory>(card: &mut Guarded<u8>, edition: u8, told: &mut Told) -> i64 {
    let mut memory = M::of(Entry::CardRead);
    // SAFETY: the pointers are to as many elements as the length says, nine for
    // the layout and four for the facts, and nothing else uses them.
    let answer = unsafe {
        ffi::imurraqi_card_read(
            memory.kept(card.whole()),
            card.length(),
            edition,
            memory.output(told.layout.whole()).cast(),
            memory.output(told.facts.whole()).cast(),
        )
    };
    memory.answered(answer)
}

pub fn card_write<M: Memory>(edition: u8, facts: Facts, out: &mut Guarded<u8>) -> i64 {
    let lent = Guarded::holding(&facts.layout);
    let mut layout = lent.clone();
    let mut memory = M::of(Entry::CardWrite);
    // SAFETY: as for `card_read`.
    let answer = unsafe {
        ffi::imurraqi_card_write(
            edition,
            memory.kept(layout.whole()).cast(),
            facts.width,
            facts.height,
            facts.item,
            facts.access,
            memory.output(out.whole()),
            out.length(),
        )
    };
    let answer = memory.answered(answer);
    if layout == lent {
        answer
    } else {
        LAYOUT_CHANGED
    }
}

pub fn card_rewrite<M: Memory>(card: &mut Guarded<u8>, edition: u8, out: &mut Guarded<u8>) -> i64 {
    let mut memory = M::of(Entry::CardRewrite);
    // SAFETY: as for `card_read`.
    let answer = unsafe {
        ffi::imurraqi_card_rewrite(
            memory.kept(card.whole()),
            card.length(),
            edition,
            memory.output(out.whole()),
            out.length(),
        )
    };
    memory.answered(answer)
}

pub fn stack_find<M: Memory>(stack: &mut Guarded<u8>, edition: u8, item: u64) -> i64 {
    let mut memory = M::of(Entry::StackFind);
    let cards = memory.kept(stack.whole());
    // SAFETY: as for `card_read`.
    memory.answered(unsafe { ffi::imurraqi_stack_find(cards, stack.length(), edition, item) })
}
