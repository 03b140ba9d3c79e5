//! Cards of any facts, and a full stack.

use super::{label, MANY};
use crate::case::Case;
use crate::library;
use crate::plain;
use crate::plain::cards::{Facts, Numbered, BYTES, MOST_CARDS, NEWEST};
use crate::plain::layout::Numbers;
use crate::random::Random;

/// A card and the edition that is asked.
type Asked = (Vec<u8>, u8);

/// Bytes that are refused at the newest edition: 9, 8, 9, 10, 9.
const PLACES: [(usize, u8); 5] = [(0, 0), (0, NEWEST + 1), (2, 3), (24, 3), (31, 1)];

pub fn cases() -> Result<Vec<Case>, String> {
    let mut random = Random::new();
    let facts: Vec<Facts> = (0..MANY as u64)
        .map(|index| any_facts(&mut random, 1 + index))
        .collect();
    let cards: Vec<Asked> = facts.iter().map(|facts| (card(*facts), NEWEST)).collect();
    let odd = odd_facts(&mut random);
    Ok(vec![
        read(cards.clone(), odd)?,
        write(facts, odd)?,
        rewrite(cards, odd)?,
        find(&mut random)?,
    ])
}

/// One in eight has groups, and an even width.
pub fn any_facts(random: &mut Random, item: u64) -> Facts {
    let (layout, width) = match random.below(8) {
        0 => (random.groups(), 2 + 2 * random.code(11)),
        _ => (random.layout(), 1 + random.code(12)),
    };
    Facts {
        layout,
        width,
        height: 1 + random.code(12),
        item,
        access: random.below(3),
    }
}

/// Facts of groups whose width is odd.
fn odd_facts(random: &mut Random) -> Facts {
    Facts {
        layout: random.groups(),
        width: 719,
        ..any_facts(random, 1)
    }
}

pub fn card(facts: Facts) -> Vec<u8> {
    let mut card = vec![0; BYTES];
    plain::cards::write(NEWEST, facts, &mut card);
    card
}

/// A card too short, an edition that is not known, cards with a wrong byte, and one of
/// groups whose width is odd.
fn wrong(card: &[u8], odd: Facts) -> Vec<Asked> {
    let mut wrong = vec![(card[1..].to_vec(), NEWEST), (card.to_vec(), NEWEST + 1)];
    for (place, byte) in PLACES {
        let mut card = card.to_vec();
        card[place] = byte;
        wrong.push((card, NEWEST));
    }
    let mut odd_card = self::card(Facts { width: 720, ..odd });
    odd_card[12..14].copy_from_slice(&odd.width.to_le_bytes());
    wrong.push((odd_card, NEWEST));
    wrong
}

fn read(cards: Vec<Asked>, odd: Facts) -> Result<Case, String> {
    let wrong = wrong(&cards[0].0, odd);
    Case::calls(
        label("card_read", "32 bytes", "any facts"),
        cards,
        &wrong,
        (Numbers::default(), Numbered::default()),
        [
            |(card, edition), (layout, numbers)| {
                library::cards::read(card, *edition, layout, numbers)
            },
            |(card, edition), (layout, numbers)| {
                plain::cards::read(card, *edition, layout, numbers)
            },
        ],
    )
}

fn write(facts: Vec<Facts>, odd: Facts) -> Result<Case, String> {
    let first = Facts {
        access: 2,
        ..facts[0]
    };
    let outside = Facts { width: 0, ..first };
    let refused = [
        (NEWEST + 1, first, BYTES),
        (NEWEST, outside, BYTES),
        (NEWEST, odd, BYTES),
        (1, first, BYTES),
        (NEWEST, first, BYTES - 1),
    ];
    Case::calls(
        label("card_write", "32 bytes", "any facts"),
        facts
            .into_iter()
            .map(|facts| (NEWEST, facts, BYTES))
            .collect(),
        &refused,
        [0; BYTES],
        [
            |(edition, facts, length), out| {
                library::cards::write(*edition, facts, &mut out[..*length])
            },
            |(edition, facts, length), out| {
                plain::cards::write(*edition, *facts, &mut out[..*length])
            },
        ],
    )
}

fn rewrite(cards: Vec<Asked>, odd: Facts) -> Result<Case, String> {
    let whole = |(card, edition)| (card, edition, BYTES);
    let (card, edition) = cards[0].clone();
    let mut refused: Vec<(Vec<u8>, u8, usize)> = wrong(&card, odd).into_iter().map(whole).collect();
    refused.push((card, edition, BYTES - 1));
    Case::calls(
        label("card_rewrite", "32 bytes", "any facts"),
        cards.into_iter().map(whole).collect(),
        &refused,
        [0; BYTES],
        [
            |(card, edition, length), out| {
                library::cards::rewrite(card, *edition, &mut out[..*length])
            },
            |(card, edition, length), out| {
                plain::cards::rewrite(card, *edition, &mut out[..*length])
            },
        ],
    )
}

/// The item is in the last card of a full stack.
fn find(random: &mut Random) -> Result<Case, String> {
    let item = MOST_CARDS as u64;
    let stack: Vec<u8> = (1..=item)
        .flat_map(|item| card(any_facts(random, item)))
        .collect();
    let refused = [
        (stack[1..].to_vec(), NEWEST, item),
        (stack.clone(), NEWEST + 1, item),
        (stack.clone(), NEWEST, item + 1),
    ];
    Case::calls(
        label("stack_find", "1,024 cards", "item in the last"),
        vec![(stack, NEWEST, item)],
        &refused,
        (),
        [
            |(stack, edition, item), ()| library::cards::find(stack, *edition, *item),
            |(stack, edition, item), ()| plain::cards::find(stack, *edition, *item),
        ],
    )
}
