//! Mistakes in what a search refuses, in which order, and in lent memory.

use reference::card;

use crate::card::SIZE;
use crate::guarded::Guarded;
use crate::stack::{expected_find, MOST_CARDS};

use super::stack::finds;
use super::Wrong;

pub const WRONG: &[Wrong] = &[
    // Refusals 1 and 7.
    finds("1,025 cards accepted", |stack, edition, item| {
        match stack.length() / SIZE {
            1025 => {
                let first = Guarded::holding(&stack.elements()[..MOST_CARDS * SIZE]);
                expected_find(&mut first.clone(), edition, item)
            }
            _ => expected_find(stack, edition, item),
        }
    }),
    finds("1,024 cards refused", |stack, edition, item| {
        match stack.length() / SIZE {
            1024 => -1,
            _ => expected_find(stack, edition, item),
        }
    }),
    finds("a part of a card passed over", |stack, edition, item| {
        let whole = stack.length() / SIZE * SIZE;
        expected_find(
            &mut Guarded::holding(&stack.elements()[..whole]),
            edition,
            item,
        )
    }),
    finds(
        "a length cut to 16 bits, finding",
        |stack, edition, item| {
            let length = stack.length() % 65_536;
            expected_find(
                &mut Guarded::holding(&stack.elements()[..length]),
                edition,
                item,
            )
        },
    ),
    finds("multiples of 16 accepted", |stack, edition, item| {
        let length = stack.length() - stack.length() % SIZE / 16 * 16;
        expected_find(
            &mut Guarded::holding(&stack.elements()[..length]),
            edition,
            item,
        )
    }),
    finds(
        "an empty stack refused by 1",
        |stack, edition, item| match stack.length() {
            0 => -1,
            _ => expected_find(stack, edition, item),
        },
    ),
    finds("edition 3 finds as 2", |stack, edition, item| {
        let edition = if edition == 3 { 2 } else { edition };
        expected_find(stack, edition, item)
    }),
    finds("edition 4 finds as 3", |stack, edition, item| {
        let edition = if edition == 4 { 3 } else { edition };
        expected_find(stack, edition, item)
    }),
    finds("edition 5 finds as 4", |stack, edition, item| {
        let edition = if edition == 5 { 4 } else { edition };
        expected_find(stack, edition, item)
    }),
    finds("edition 3 not known", |stack, edition, item| {
        let edition = if edition == 3 { 5 } else { edition };
        expected_find(stack, edition, item)
    }),
    finds("edition 4 not known", |stack, edition, item| {
        let edition = if edition == 4 { 5 } else { edition };
        expected_find(stack, edition, item)
    }),
    finds("edition 0 finds as 1", |stack, edition, item| {
        expected_find(stack, edition.max(1), item)
    }),
    finds(
        "15 for an unknown edition",
        |stack, edition, item| match expected_find(stack, edition, item) {
            -7 => -15,
            answer => answer,
        },
    ),
    // The order of refusals.
    finds(
        "7 before 1, finding",
        |stack, edition, item| match edition {
            1..=4 => expected_find(stack, edition, item),
            _ => -7,
        },
    ),
    finds("15 before 7", |stack, edition, item| {
        match (
            expected_find(stack, edition, item),
            expected_find(stack, 4, item),
        ) {
            (-7, -15) => -15,
            (answer, _) => answer,
        }
    }),
    finds(
        "15 of an empty stack before 7",
        |stack, edition, item| match stack.length() {
            0 => -15,
            _ => expected_find(stack, edition, item),
        },
    ),
    finds("15 before 1", |stack, edition, item| {
        match expected_find(stack, edition, item) {
            -1 if stack.length() < SIZE => -15,
            answer => answer,
        }
    }),
    // Memory.
    finds("refused cards cleared", |stack, edition, item| {
        let answer = expected_find(stack, edition, item);
        if answer == -15 {
            for card in stack.output().chunks_mut(SIZE) {
                if card::read(card, edition).is_err() {
                    card.fill(0);
                }
            }
        }
        answer
    }),
    finds("a byte after the stack changed", |stack, edition, item| {
        let answer = expected_find(stack, edition, item);
        let length = stack.length();
        stack.output_and_beyond()[length] = 0;
        answer
    }),
    finds("nothing found", |_, _, _| -15),
];
