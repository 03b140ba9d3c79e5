//! Stacks with the places of their items told by hand. The library and the
//! reference are both compared with them.

use crate::card::{SIZE, WIDTH};
use crate::guarded::Guarded;
use crate::library::Library;
use crate::tally::{Flow, Tally};
use crate::wrong::REFERENCE;

use super::stacks::{card_of, card_of_12_bits, card_of_groups, changed, older_card_of};

pub fn by_hand(library: &Library, tally: &mut Tally) -> Flow {
    let refused = [0; SIZE];
    let odd = changed(card_of_groups(7, 0), &[(WIDTH, 0xd1)]);
    let stack = [
        card_of(5, 0),
        refused,
        odd,
        card_of_groups(7, 0),
        older_card_of(7, 0),
        card_of_12_bits(7),
        card_of(7, 1),
        card_of(7, 2),
    ]
    .concat();
    let whole = &stack[..];
    let examples = [
        // What is found first depends on what the edition reads.
        ("the first card", whole, 1, 5, 0),
        ("groups at 4", whole, 4, 7, 3),
        ("an early capture at 3", whole, 3, 7, 4),
        ("12 bits at 2", whole, 2, 7, 5),
        ("none of them at 1", whole, 1, 7, 6),
        ("no such item", whole, 2, 6, -15),
        ("no such item at 4", whole, 4, 6, -15),
        ("item 0", whole, 2, 0, -15),
        ("an empty stack", &[], 2, 7, -15),
        // Refusals that compete.
        ("edition 5", whole, 5, 7, -7),
        ("edition 0, no such item", whole, 0, 6, -7),
        ("an empty stack, edition 5", &[], 5, 7, -7),
        ("a byte too few", &whole[1..], 2, 7, -1),
        ("a byte too few, edition 5", &whole[1..], 5, 7, -1),
    ];
    for (program, library) in [("library", library), ("reference", &REFERENCE)] {
        for (name, stack, edition, item, must_be) in examples {
            let answer = (library.stack_find)(&mut Guarded::holding(stack), edition, item);
            tally.compare(answer == must_be, || {
                format!("{name}, {program}: answer {answer}, must be {must_be}")
            })?;
        }
    }
    Flow::Continue(())
}
