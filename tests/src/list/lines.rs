//! What a card's line says. Many cards share a stack.

use crate::card::cards;
use crate::card::{Card, ACCESS, ITEM, SIZE, WRITTEN};
use crate::library::Library;
use crate::stack::stacks::{card_of, card_of_groups, older_card_of, refused_cards_of};
use crate::stack::MOST_CARDS;
use crate::tally::{Flow, Tally};

use super::compare_list;

/// Every access number, from editions 1 to 4 and later ones, alone and with a byte
/// after it, of cards that every edition reads, that 3 and 4 do, and that only 4 does.
pub fn access(library: &Library, tally: &mut Tally) -> Flow {
    for written in [1, 2, 3, 4, 5, 255] {
        for after in [0, 1] {
            let cards = (0..=767).map(|number: u16| {
                let access = number as u8;
                let item = 1 + u64::from(number);
                let mut card = match number {
                    0..=255 => card_of(item, 0),
                    256..=511 => older_card_of(item, usize::from(access)),
                    _ => card_of_groups(item, usize::from(access)),
                };
                card[WRITTEN] = written;
                card[ACCESS] = access;
                card[SIZE - 1] = after;
                card
            });
            compare_all(library, tally, cards)?;
        }
    }
    Flow::Continue(())
}

/// Numbers of every count of digits, and those around them; every width and height, of
/// points and of groups, whose widths are even.
pub fn sizes_and_items(library: &Library, tally: &mut Tally) -> Flow {
    let powers = (0..20).map(|exponent| 10u64.pow(exponent));
    let items = powers.flat_map(|power| [power - 1, power, power + 1]);
    let bits = (0..64).flat_map(|bit| [1 << bit, u64::MAX >> bit]);
    let items = items.chain(bits).map(|item| {
        let mut card = card_of(1, 0);
        card[ITEM..][..8].copy_from_slice(&item.to_le_bytes());
        card
    });
    compare_all(library, tally, items)?;
    for card_of in [card_of, card_of_groups] {
        let sides = (0u16..=4100).map(|side| {
            let mut card = card_of(u64::from(side) + 1, usize::from(side));
            card[12..14].copy_from_slice(&side.to_le_bytes());
            card[14..16].copy_from_slice(&(4097 - side.min(4097)).to_le_bytes());
            card
        });
        compare_all(library, tally, sides)?;
    }
    Flow::Continue(())
}

/// Every refusal that a card has, among good cards.
pub fn refused(library: &Library, tally: &mut Tally) -> Flow {
    let good = card_of(8, 2);
    let mut cards = refused_cards_of(7);
    cards.extend([[0; SIZE], [255; SIZE], good]);
    compare_all(library, tally, cards.iter().copied())?;
    for card in cards {
        compare_list(library, tally, &[good, card, good].concat())?;
    }
    Flow::Continue(())
}

/// All values of all bytes of cards that are accepted.
pub fn changed(library: &Library, tally: &mut Tally) -> Flow {
    let changed = cards::chosen().into_iter().flat_map(|card| {
        (0..SIZE).flat_map(move |place| {
            (0..=u8::MAX).map(move |byte| {
                let mut changed = card;
                changed[place] = byte;
                changed
            })
        })
    });
    compare_all(library, tally, changed)
}

/// Full stacks of these cards, and one of the rest.
fn compare_all(library: &Library, tally: &mut Tally, cards: impl Iterator<Item = Card>) -> Flow {
    let cards: Vec<Card> = cards.collect();
    for stack in cards.chunks(MOST_CARDS) {
        compare_list(library, tally, stack.as_flattened())?;
    }
    Flow::Continue(())
}
