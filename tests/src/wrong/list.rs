//! Mistakes in the list of a stack.

use reference::card;
use reference::stack;

use crate::card::{LEAST, SIZE, WRITTEN};
use crate::library::program::StackList;
use crate::library::Library;
use crate::list::EXPECTED_LIST;
use crate::plain::stack::{listed, WORDS};
use crate::stack::MOST_CARDS;

use super::{Wrong, REFERENCE};

pub const WRONG: &[Wrong] = &[
    // A card's line.
    lists("access words exchanged", |pieces| {
        listed(
            pieces,
            ["open", "community", "closed"],
            same_size,
            same_item,
        )
    }),
    lists("every card listed as open", |pieces| {
        listed(pieces, ["open"; 3], same_size, same_item)
    }),
    lists("no word for closed", |pieces| {
        listed(pieces, ["", WORDS[1], WORDS[2]], same_size, same_item)
    }),
    lists("height by width", |pieces| {
        listed(pieces, WORDS, |width, height| [height, width], same_item)
    }),
    lists("width for both sides", |pieces| {
        listed(pieces, WORDS, |width, _| [width; 2], same_item)
    }),
    lists("items of 32 bits", |pieces| {
        listed(pieces, WORDS, same_size, |item| item & 0xffff_ffff)
    }),
    lists("items as far as floats hold them", |pieces| {
        listed(pieces, WORDS, same_size, |item| item as f64 as u64)
    }),
    lists("items with a sign", |pieces| {
        edited(pieces, |line| match line.split_once(' ') {
            Some((item, rest)) => match item.parse::<u64>() {
                Ok(item) => format!("{} {rest}", item as i64),
                Err(_) => line.to_string(),
            },
            None => line.to_string(),
        })
    }),
    lists("sides of four digits", |pieces| {
        edited(pieces, |line| match line.rsplit_once(' ') {
            Some((start, size)) if size.contains('x') => {
                let sides: Vec<String> =
                    size.split('x').map(|side| format!("{side:0>4}")).collect();
                format!("{start} {}", sides.join("x"))
            }
            _ => line.to_string(),
        })
    }),
    lists("spaces around x", |pieces| {
        edited(pieces, |line| line.replace('x', " x "))
    }),
    lists("an access number for its word", |pieces| {
        edited(pieces, |line| line.replace(" open ", " 2 "))
    }),
    lists("unknown access named so", |pieces| {
        let stack = pieces.concat();
        let text = stack::list(&stack);
        let mut lines: Vec<String> = text.lines().map(String::from).collect();
        if text.starts_with("cards") {
            for (line, card) in lines[1..].iter_mut().zip(stack.chunks(SIZE)) {
                if card[24] > 2 {
                    *line = line.replace("closed", "unknown");
                }
            }
        }
        lines
            .join("\n")
            .into_bytes()
            .into_iter()
            .chain([b'\n'])
            .collect()
    }),
    lists("read at edition 1", |pieces| read_at(pieces, |_| 1)),
    lists("read at edition 2", |pieces| read_at(pieces, |_| 2)),
    lists("read at edition 3", |pieces| read_at(pieces, |_| 3)),
    lists("read at the writer's edition", |pieces| {
        read_at(pieces, |card| card[WRITTEN].clamp(1, 4))
    }),
    lists("read at the least edition", |pieces| {
        read_at(pieces, |card| card[LEAST].clamp(1, 4))
    }),
    lists("refused cards not listed", |pieces| {
        edited(pieces, |line| match line.starts_with('-') {
            true => String::new(),
            false => line.to_string(),
        })
        .split(|&byte| byte == b'\n')
        .filter(|line| !line.is_empty())
        .flat_map(|line| line.iter().copied().chain([b'\n']))
        .collect()
    }),
    lists("9 for every refused card", |pieces| {
        edited(pieces, |line| match line.strip_prefix("- refused ") {
            Some(_) => "- refused 9".to_string(),
            None => line.to_string(),
        })
    }),
    lists("one digit of a refusal", |pieces| {
        edited(pieces, |line| line.replace("refused 10", "refused 1"))
    }),
    lists("6 for 16", |pieces| {
        edited(pieces, |line| line.replace("refused 16", "refused 6"))
    }),
    lists("a refused card's item shown", |pieces| {
        edited(pieces, |line| match line.strip_prefix("- ") {
            Some(rest) => format!("0 {rest}"),
            None => line.to_string(),
        })
    }),
    lists("nothing after a refused card", |pieces| {
        let text = stack::list(&pieces.concat());
        match text.split_once("- refused") {
            Some((start, _)) => start.as_bytes().to_vec(),
            None => text.into_bytes(),
        }
    }),
    // The first line.
    lists("accepted cards counted", |pieces| {
        let stack = pieces.concat();
        let accepted = stack
            .chunks(SIZE)
            .filter(|card| card::read(card, card::NEWEST).is_ok())
            .count();
        edited(pieces, |line| match line.strip_prefix("cards ") {
            Some(_) => format!("cards {accepted}"),
            None => line.to_string(),
        })
    }),
    lists("no first line", |pieces| {
        let text = stack::list(&pieces.concat());
        match text.split_once('\n') {
            Some((first, rest)) if first.starts_with("cards") => rest.as_bytes().to_vec(),
            _ => text.into_bytes(),
        }
    }),
    lists("one card in the singular", |pieces| {
        edited(pieces, |line| match line {
            "cards 1" => "card 1".to_string(),
            _ => line.to_string(),
        })
    }),
    // Ends of lines.
    lists("no newline at the end", |pieces| {
        let mut text = EXPECTED_LIST(pieces);
        text.pop();
        text
    }),
    lists("no newline after a refused stack", |pieces| {
        let mut text = EXPECTED_LIST(pieces);
        if text.starts_with(b"stack") {
            text.pop();
        }
        text
    }),
    lists("an empty line at the end", |pieces| {
        let mut text = EXPECTED_LIST(pieces);
        text.push(b'\n');
        text
    }),
    lists("carriage returns", |pieces| {
        edited(pieces, |line| format!("{line}\r"))
    }),
    lists("a space at the end of a line", |pieces| {
        edited(pieces, |line| format!("{line} "))
    }),
    // The whole stack.
    lists("nothing for an empty stack", |pieces| {
        match EXPECTED_LIST(pieces) {
            text if text == b"cards 0\n" => Vec::new(),
            text => text,
        }
    }),
    lists("an empty stack refused", |pieces| {
        match EXPECTED_LIST(pieces) {
            text if text == b"cards 0\n" => b"stack refused 1\n".to_vec(),
            text => text,
        }
    }),
    lists("1,025 cards listed", |pieces| {
        let stack = pieces.concat();
        match stack.len() / SIZE {
            1025 => stack::list(&stack[..MOST_CARDS * SIZE]).into_bytes(),
            _ => EXPECTED_LIST(pieces),
        }
    }),
    lists("more than 1,024 cards not read", |pieces| {
        let stack = pieces.concat();
        stack::list(&stack[..stack.len().min(MOST_CARDS * SIZE)]).into_bytes()
    }),
    lists("a byte more than 1,024 cards not read", |pieces| {
        let stack = pieces.concat();
        match stack.len() - stack.len().min(MOST_CARDS * SIZE) {
            1 => stack::list(&stack[1..]).into_bytes(),
            _ => EXPECTED_LIST(pieces),
        }
    }),
    lists("1,024 cards refused, listing", |pieces| {
        match pieces.concat().len() / SIZE {
            1024 => b"stack refused 1\n".to_vec(),
            _ => EXPECTED_LIST(pieces),
        }
    }),
    lists("a part of a card passed over, listing", |pieces| {
        let stack = pieces.concat();
        stack::list(&stack[..stack.len() / SIZE * SIZE]).into_bytes()
    }),
    lists("a part of a card listed as refused by 1", |pieces| {
        let stack = pieces.concat();
        match stack.len() % SIZE {
            0 => EXPECTED_LIST(pieces),
            _ => {
                let whole = &stack[..stack.len() / SIZE * SIZE];
                format!("{}- refused 1\n", stack::list(whole)).into_bytes()
            }
        }
    }),
    lists("only the first piece read", |pieces| {
        EXPECTED_LIST(&pieces[..1])
    }),
    lists("two pieces read", |pieces| {
        EXPECTED_LIST(&pieces[..pieces.len().min(2)])
    }),
    lists("a length cut to 16 bits, listing", |pieces| {
        let stack = pieces.concat();
        stack::list(&stack[..stack.len() % 65_536]).into_bytes()
    }),
    lists("another text for a refused stack", |pieces| {
        edited(pieces, |line| line.replace("stack refused", "- refused"))
    }),
    lists("nothing printed", |_| Vec::new()),
];

const fn lists(mistake: &'static str, stack_list: StackList) -> Wrong {
    let library = Library {
        stack_list,
        ..REFERENCE
    };
    (mistake, library)
}

fn same_size(width: u16, height: u16) -> [u16; 2] {
    [width, height]
}

fn same_item(item: u64) -> u64 {
    item
}

/// The list with each card read at an edition.
fn read_at(pieces: &[&[u8]], edition: fn(&[u8]) -> u8) -> Vec<u8> {
    let stack = pieces.concat();
    let text = stack::list(&stack);
    if !text.starts_with("cards") {
        return text.into_bytes();
    }
    let mut read = format!("cards {}\n", stack.len() / SIZE);
    for card in stack.chunks(SIZE) {
        read += &match card::read(card, edition(card)) {
            Ok(facts) => {
                let word = WORDS[usize::from(facts.access)];
                format!("{} {word} {}x{}\n", facts.item, facts.width, facts.height)
            }
            Err(refusal) => format!("- refused {}\n", refusal.number()),
        };
    }
    read.into_bytes()
}

/// The list with each line edited.
fn edited(pieces: &[&[u8]], edit: impl Fn(&str) -> String) -> Vec<u8> {
    stack::list(&pieces.concat())
        .lines()
        .flat_map(|line| format!("{}\n", edit(line)).into_bytes())
        .collect()
}
