//! The program that lists a stack: one comparison of what it prints with the
//! reference's text, and the parts that choose what to compare.

use reference::stack;

use crate::library::program::StackList;
use crate::library::Library;
use crate::part::{part, Part};
use crate::tally::{Flow, Tally};

mod examples;
mod lines;
mod whole;

/// The parts that try a program, the quick ones first.
pub const PARTS: &[Part] = &[
    part("list, printed examples", examples::printed),
    part("list, access words", lines::access),
    part("list, sizes and items", lines::sizes_and_items),
    part("list, lengths", whole::lengths),
    part("list, refused cards", lines::refused),
    part("list, a stack in pieces", whole::pieces),
    part("list, single bytes changed", lines::changed),
    part("list, random stacks", whole::random),
];

pub const EXPECTED_LIST: StackList = |pieces| stack::list(&pieces.concat()).into_bytes();

/// The whole text against the reference's.
fn compare_list(library: &Library, tally: &mut Tally, stack: &[u8]) -> Flow {
    compare_pieces(library, tally, &[stack])
}

/// The same for a stack that comes in pieces.
fn compare_pieces(library: &Library, tally: &mut Tally, pieces: &[&[u8]]) -> Flow {
    let text = (library.stack_list)(pieces);
    let expected = EXPECTED_LIST(pieces);
    tally.compare(text == expected, || {
        let lengths: Vec<usize> = pieces.iter().map(|piece| piece.len()).collect();
        format!(
            "list of {lengths:?} bytes: {}",
            first_difference(&text, &expected)
        )
    })
}

/// The first line that differs, and what it must be.
fn first_difference(text: &[u8], expected: &[u8]) -> String {
    let [text, expected] = [text, expected].map(String::from_utf8_lossy);
    let [mut lines, mut expected] = [&text, &expected].map(|text| text.split_inclusive('\n'));
    let mut number = 0;
    loop {
        number += 1;
        match (lines.next(), expected.next()) {
            (None, None) => return "other bytes".to_string(),
            (line, must_be) if line != must_be => {
                return format!("line {number} is {line:?}, must be {must_be:?}");
            }
            _ => {}
        }
    }
}
