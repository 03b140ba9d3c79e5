//! Stacks of cards: finding an item, and the paper's "The stack list".

use std::slice::ChunksExact;

use crate::card::{self, Facts};
use crate::refusal::Refusal;

pub const MOST_CARDS: usize = 1024;

/// The index of the first card that the edition reads and that has the number.
pub fn find(stack: &[u8], edition: u8, item: u64) -> Result<usize, Refusal> {
    let mut cards = cards(stack)?;
    card::known(edition)?;
    cards
        .position(|card| card::read(card, edition).is_ok_and(|facts| facts.item == item))
        .ok_or(Refusal::NoItem)
}

/// The whole text of the stack list, which is read at the newest edition.
pub fn list(stack: &[u8]) -> String {
    match cards(stack) {
        Ok(cards) => {
            let mut text = format!("cards {}\n", cards.len());
            for card in cards {
                text.push_str(&line(card::read(card, card::NEWEST)));
            }
            text
        }
        Err(refusal) => format!("stack refused {}\n", refusal.number()),
    }
}

fn line(reading: Result<Facts, Refusal>) -> String {
    match reading {
        Ok(facts) => {
            let Facts {
                width,
                height,
                item,
                access,
                ..
            } = facts;
            format!("{item} {} {width}x{height}\n", word(access))
        }
        Err(refusal) => format!("- refused {}\n", refusal.number()),
    }
}

/// The word for an access number that a reading gives.
fn word(access: u8) -> &'static str {
    match access {
        card::COMMUNITY => "community",
        card::OPEN => "open",
        _ => "closed",
    }
}

fn cards(stack: &[u8]) -> Result<ChunksExact<'_, u8>, Refusal> {
    let cards = stack.chunks_exact(card::SIZE);
    if cards.remainder().is_empty() && cards.len() <= MOST_CARDS {
        Ok(cards)
    } else {
        Err(Refusal::Size)
    }
}

#[cfg(test)]
mod tests {
    use super::{find, list, MOST_CARDS};
    use crate::card::{self, Facts, OPEN, SIZE};
    use crate::layout::Numbers;
    use crate::refusal::Refusal;

    /// A card of item 7, open, 720 by 576.
    fn card_of_7() -> [u8; SIZE] {
        written(2, [2, 2, 1, 10, 4, 0, 10, 20, 0])
    }

    /// The same in a layout, written at an edition.
    fn written(edition: u8, layout: Numbers) -> [u8; SIZE] {
        let facts = Facts {
            layout,
            width: 720,
            height: 576,
            item: 7,
            access: OPEN,
        };
        let mut card = [0; SIZE];
        card::write(edition, facts, &mut card).expect("facts that the edition writes");
        card
    }

    #[test]
    fn the_older_full_range_is_of_edition_3_and_groups_of_4() {
        let older = written(3, [2, 2, 3, 8, 3, 0, 8, 16, 0]);
        let groups = written(4, [2, 2, 1, 8, 4, 0, 0, 0, 1]);
        let mut odd = groups;
        odd[12] += 1;
        let stack = [odd, groups, older, card_of_7()].concat();
        let listed = "cards 4\n- refused 16\n7 open 720x576\n7 open 720x576\n7 open 720x576\n";
        assert_eq!(list(&stack), listed);
        assert_eq!(find(&stack, 4, 7), Ok(1));
        assert_eq!(find(&stack, 3, 7), Ok(2));
        assert_eq!(find(&stack, 2, 7), Ok(3));
    }

    #[test]
    fn printed_list() {
        let stack = [card_of_7(), [0; SIZE]].concat();
        assert_eq!(list(&stack), "cards 2\n7 open 720x576\n- refused 9\n");
    }

    #[test]
    fn empty_and_refused_lists() {
        assert_eq!(list(&[]), "cards 0\n");
        assert_eq!(list(&[0; SIZE + 1]), "stack refused 1\n");
        let too_many = [0; (MOST_CARDS + 1) * SIZE];
        assert_eq!(list(&too_many), "stack refused 1\n");
    }

    #[test]
    fn found_after_a_refused_card() {
        let stack = [[0; SIZE], card_of_7(), card_of_7()].concat();
        assert_eq!(find(&stack, 2, 7), Ok(1));
        assert_eq!(find(&stack, 2, 8), Err(Refusal::NoItem));
        assert_eq!(find(&stack, 5, 8), Err(Refusal::Edition));
        assert_eq!(find(&stack[1..], 5, 8), Err(Refusal::Size));
        assert_eq!(find(&[], 1, 7), Err(Refusal::NoItem));
    }
}
