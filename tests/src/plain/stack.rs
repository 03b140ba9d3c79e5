//! Stacks, from the last card to the first, and their lists, digit by digit.

use crate::card::{ITEM, SIZE};
use crate::guarded::Guarded;

use super::card::{is_known, refusal, shown, stated, Asked, READING};

const MOST_CARDS: usize = 1024;

pub const WORDS: [&str; 3] = ["closed", "community", "open"];

pub fn found(stack: &mut Guarded<u8>, edition: u8, item: u64) -> i64 {
    let stack = stack.elements();
    if is_refused(stack) {
        return -1;
    }
    if !is_known(edition) {
        return -7;
    }
    let mut found = -15;
    for index in (0..stack.len() / SIZE).rev() {
        let card = &stack[index * SIZE..][..SIZE];
        let has_item = card[ITEM..][..8] == item.to_le_bytes();
        if has_item && refusal(&Asked::new(card, edition), &READING) == 0 {
            found = index as i64;
        }
    }
    found
}

/// Lists with the given words, sizes and items.
pub fn listed(
    pieces: &[&[u8]],
    words: [&str; 3],
    size: fn(u16, u16) -> [u16; 2],
    item: fn(u64) -> u64,
) -> Vec<u8> {
    let stack = pieces.concat();
    if is_refused(&stack) {
        return b"stack refused 1\n".to_vec();
    }
    let mut text = b"cards ".to_vec();
    number(&mut text, (stack.len() / SIZE) as u64);
    for card in stack.chunks(SIZE) {
        text.push(b'\n');
        let asked = Asked::new(card, 4);
        match refusal(&asked, &READING) {
            0 => {
                let facts = stated(&asked.card, shown(&asked));
                number(&mut text, item(facts.item));
                text.push(b' ');
                text.extend(words[usize::from(facts.access)].as_bytes());
                text.push(b' ');
                let [first, second] = size(facts.width, facts.height);
                number(&mut text, first.into());
                text.push(b'x');
                number(&mut text, second.into());
            }
            answer => {
                text.extend(b"- refused ");
                number(&mut text, answer.unsigned_abs());
            }
        }
    }
    text.push(b'\n');
    text
}

fn is_refused(stack: &[u8]) -> bool {
    !stack.len().is_multiple_of(SIZE) || stack.len() > MOST_CARDS * SIZE
}

/// The decimal digits of a number.
pub fn number(text: &mut Vec<u8>, number: u64) {
    if number > 9 {
        self::number(text, number / 10);
    }
    text.push(b'0' + (number % 10) as u8);
}
