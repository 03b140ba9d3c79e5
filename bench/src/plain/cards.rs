//! Cards and stacks in plain Rust.

use super::layout::{self, Numbers};
use super::refusal::{
    ACCESS, EDITION, LATER_EDITION, LENGTH, NO_ITEM, ODD_COUNT, OUTSIDE, SIZE, UNWRITABLE,
};

pub const BYTES: usize = 32;
pub const MOST_CARDS: usize = 1024;

/// The newest edition.
pub const NEWEST: u8 = 4;

const CLOSED: u8 = 0;
pub const OPEN: u8 = 2;

#[derive(Clone, Copy, Debug)]
pub struct Facts {
    pub layout: Numbers,
    pub width: u16,
    pub height: u16,
    pub item: u64,
    pub access: u8,
}

/// Width, height, item and access.
pub type Numbered = [u64; 4];

pub fn read(card: &[u8], edition: u8, layout: &mut Numbers, numbers: &mut Numbered) -> i64 {
    match shown(card, edition) {
        Ok(facts) => {
            *layout = facts.layout;
            *numbers = facts.numbers();
            0
        }
        Err(refusal) => refusal,
    }
}

pub fn write(edition: u8, facts: Facts, out: &mut [u8]) -> i64 {
    if !matches!(edition, 1..=NEWEST) {
        return EDITION;
    }
    if !facts.valid() {
        return OUTSIDE;
    }
    if facts.odd() {
        return ODD_COUNT;
    }
    let least = least_edition(facts.layout);
    if edition < least || edition == 1 && facts.access != CLOSED {
        return UNWRITABLE;
    }
    let Ok(out) = <&mut [u8; BYTES]>::try_from(out) else {
        return LENGTH;
    };
    *out = [0; BYTES];
    out[0] = least;
    out[1] = edition;
    out[2..7].copy_from_slice(&facts.layout[..5]);
    out[7] = facts.layout[8];
    out[8..11].copy_from_slice(&facts.layout[5..8]);
    out[12..14].copy_from_slice(&facts.width.to_le_bytes());
    out[14..16].copy_from_slice(&facts.height.to_le_bytes());
    out[16..24].copy_from_slice(&facts.item.to_le_bytes());
    out[24] = facts.access;
    0
}

pub fn rewrite(card: &[u8], edition: u8, out: &mut [u8]) -> i64 {
    match shown(card, edition) {
        Ok(facts) => write(edition, facts, out),
        Err(refusal) => refusal,
    }
}

/// The item's number is looked at first, as few cards have it.
pub fn find(stack: &[u8], edition: u8, item: u64) -> i64 {
    let cards = stack.chunks_exact(BYTES);
    if !cards.remainder().is_empty() || cards.len() > MOST_CARDS {
        return SIZE;
    }
    if !matches!(edition, 1..=NEWEST) {
        return EDITION;
    }
    for (index, card) in cards.enumerate() {
        if card[16..24] == item.to_le_bytes() && shown(card, edition).is_ok() {
            return index as i64;
        }
    }
    NO_ITEM
}

/// What a card shows at an edition.
pub fn shown(card: &[u8], edition: u8) -> Result<Facts, i64> {
    let card = <&[u8; BYTES]>::try_from(card).map_err(|_| SIZE)?;
    if !matches!(edition, 1..=NEWEST) {
        return Err(EDITION);
    }
    let [least, writer, ..] = *card;
    if least == 0 {
        return Err(OUTSIDE);
    }
    if least > edition {
        return Err(LATER_EDITION);
    }
    let [_, _, model, primaries, range, depth, bytes, sampling, first, second, third, ..] = *card;
    let facts = Facts {
        layout: [
            model, primaries, range, depth, bytes, first, second, third, sampling,
        ],
        width: u16::from_le_bytes([card[12], card[13]]),
        height: u16::from_le_bytes([card[14], card[15]]),
        item: number(card, 16),
        access: CLOSED,
    };
    let right = facts.valid() && least == least_edition(facts.layout) && least <= writer;
    if !right || card[11] != 0 {
        return Err(OUTSIDE);
    }
    if facts.odd() {
        return Err(ODD_COUNT);
    }
    let access = shown_access(number(card, 24), writer, edition)?;
    Ok(Facts { access, ..facts })
}

/// The access that bytes 24 to 31 show.
fn shown_access(end: u64, writer: u8, edition: u8) -> Result<u8, i64> {
    let access = end as u8;
    let later = writer > edition;
    match (writer, edition) {
        (1, _) if end != 0 => Err(OUTSIDE),
        (1, _) | (_, 1) => Ok(CLOSED),
        _ if later && access > OPEN => Ok(CLOSED),
        _ if later => Ok(access),
        _ if access > OPEN => Err(ACCESS),
        _ if end > 0xff => Err(OUTSIDE),
        _ => Ok(access),
    }
}

impl Facts {
    pub fn numbers(self) -> Numbered {
        [
            self.width.into(),
            self.height.into(),
            self.item,
            self.access.into(),
        ]
    }

    fn valid(self) -> bool {
        layout::valid(self.layout)
            && matches!(self.width, 1..=4096)
            && matches!(self.height, 1..=4096)
            && self.item != 0
            && self.access <= OPEN
    }

    /// Whether a line is not of whole groups.
    fn odd(self) -> bool {
        layout::grouped(self.layout) && self.width % 2 == 1
    }
}

fn least_edition(layout: Numbers) -> u8 {
    let [_, _, range, depth, ..] = layout;
    match (range, depth) {
        _ if layout::grouped(layout) => 4,
        (3, _) => 3,
        (_, 12) => 2,
        _ => 1,
    }
}

fn number(card: &[u8; BYTES], place: usize) -> u64 {
    let mut eight = [0; 8];
    eight.copy_from_slice(&card[place..place + 8]);
    u64::from_le_bytes(eight)
}
