//! Stacks: one comparison of the finder with the reference, and the parts that
//! choose what to compare.

use reference::stack;

use crate::guarded::Guarded;
use crate::library::Library;
use crate::lines::answer;
use crate::part::{part, Part};
use crate::tally::{Flow, Tally};

mod examples;
mod finding;
mod lengths;
pub mod stacks;

/// The parts that try a library, the quick ones first: most wrong programs are
/// caught by them.
pub const PARTS: &[Part] = &[
    part("find, by hand", examples::by_hand),
    part("find, lengths", lengths::lengths),
    part("find, every edition", lengths::editions),
    part("find, refused cards before", finding::after_refused),
    part("find, items that are nearly right", finding::near_items),
    part("find, random stacks", finding::random),
    part("find, every place of a full stack", finding::every_place),
];

pub const MOST_CARDS: usize = stack::MOST_CARDS;

pub fn expected_find(stack: &mut Guarded<u8>, edition: u8, item: u64) -> i64 {
    answer(stack::find(stack.elements(), edition, item))
}

/// The library's answer against the reference's. The stack, and what lies beside
/// it, must stay as it is.
fn compare_find(
    library: &Library,
    tally: &mut Tally,
    stack: &[u8],
    edition: u8,
    item: u64,
) -> Flow {
    let lent = Guarded::holding(stack);
    let mut stack_after = lent.clone();
    let found = (library.stack_find)(&mut stack_after, edition, item);
    let expected = answer(stack::find(stack, edition, item));
    let kept = stack_after == lent;
    tally.compare(found == expected && kept, || {
        format!(
            "find {item} at {edition} in {} bytes, {:?}: answer {found}, must be {expected}{}",
            stack.len(),
            &stack[..stack.len().min(64)],
            if kept { "" } else { "; the stack is changed" }
        )
    })
}
