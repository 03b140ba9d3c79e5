//! The cards and stacks that are tried.

use reference::card::Facts;

use crate::card::cards;
use crate::card::{Card, ACCESS, LEAST, SAMPLING, SIZE, WIDTH, WRITTEN};
use crate::random::Random;

use super::MOST_CARDS;

/// A card of an item that every edition reads. Sizes and access take turns.
pub fn card_of(item: u64, turn: usize) -> Card {
    let depth = [8, 10][turn % 2];
    cards::card(Facts {
        item,
        access: (turn % 3) as u8,
        ..cards::facts_in_turn(cards::layout(depth), turn)
    })
}

/// A card of an item that edition 1 refuses and later ones read.
pub fn card_of_12_bits(item: u64) -> Card {
    cards::card(Facts {
        item,
        ..cards::facts(12)
    })
}

/// A card of an item in the older full range, which edition 3 reads, and later ones do.
/// Depths, sizes and access take turns.
pub fn older_card_of(item: u64, turn: usize) -> Card {
    let depth = [8, 10, 12][turn % 3];
    cards::card(Facts {
        item,
        access: (turn / 3 % 3) as u8,
        ..cards::facts_in_turn(cards::older(depth), turn)
    })
}

/// A card of an item in groups, which only edition 4 reads. Sizes and access take turns.
pub fn card_of_groups(item: u64, turn: usize) -> Card {
    cards::card(Facts {
        item,
        access: (turn % 3) as u8,
        ..cards::facts_in_turn(cards::groups(), turn)
    })
}

/// Cards of an item that editions 2 to 4 refuse, by every refusal they have; two, for
/// their bytes from 24 on, are read by edition 1.
pub fn refused_cards_of(item: u64) -> Vec<Card> {
    let of_points: [&[(usize, u8)]; 15] = [
        &[(LEAST, 0)],
        &[(LEAST, 5), (WRITTEN, 5)],
        &[(LEAST, 4), (WRITTEN, 4)],
        &[(LEAST, 3), (WRITTEN, 3)],
        &[(LEAST, 2)],
        &[(4, 3)],
        &[(4, 3), (LEAST, 2)],
        &[(4, 4), (LEAST, 3), (WRITTEN, 3)],
        &[(WRITTEN, 0)],
        &[(2, 3)],
        &[(SAMPLING, 1)],
        &[(14, 0), (15, 0)],
        &[(WRITTEN, 1), (ACCESS, 1)],
        &[(ACCESS, 3)],
        &[(SIZE - 1, 1)],
    ];
    let of_groups: [&[(usize, u8)]; 6] = [
        // An odd width, and that with 9 before it and 10 after it.
        &[(WIDTH, 0xd1)],
        &[(WIDTH, 0xd1), (11, 1)],
        &[(WIDTH, 0xd1), (ACCESS, 3)],
        &[(SAMPLING, 0)],
        &[(SAMPLING, 2)],
        &[(LEAST, 3)],
    ];
    let points = of_points.map(|changes| changed(card_of(item, 0), changes));
    let groups = of_groups.map(|changes| changed(card_of_groups(item, 0), changes));
    points.into_iter().chain(groups).collect()
}

/// A card with some bytes changed.
pub fn changed(mut card: Card, changes: &[(usize, u8)]) -> Card {
    for &(place, byte) in changes {
        card[place] = byte;
    }
    card
}

/// So many cards of the items from 1 on.
pub fn counted(cards: usize) -> Vec<u8> {
    (0..cards)
        .flat_map(|index| card_of(index as u64 + 1, index))
        .collect()
}

/// A stack with few items, so that many are there twice, and with cards of 12 bits,
/// of the older full range, of groups, refused cards and cards of later editions among
/// them.
pub fn random(random: &mut Random, most_items: usize) -> Vec<u8> {
    let cards = match random.below(8) {
        0 => random.below(MOST_CARDS + 1),
        _ => random.below(20),
    };
    (0..cards)
        .flat_map(|turn| random_card(random, most_items, turn))
        .collect()
}

fn random_card(random: &mut Random, most_items: usize, turn: usize) -> Card {
    let item = 1 + random.below(most_items) as u64;
    match random.below(10) {
        0 => card_of_12_bits(item),
        8 => older_card_of(item, turn),
        9 => card_of_groups(item, turn),
        1 | 2 => {
            let refused = refused_cards_of(item);
            refused[random.below(refused.len())]
        }
        3 => {
            let mut later = card_of(item, turn);
            later[WRITTEN] = 3 + random.below(253) as u8;
            later[ACCESS..].fill_with(|| random.below(5) as u8);
            later
        }
        4 => {
            let mut changed = card_of(item, turn);
            changed[random.below(SIZE)] = random.next() as u8;
            changed
        }
        _ => card_of(item, turn),
    }
}
