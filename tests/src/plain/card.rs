//! Cards, byte by byte: each order of refusals is a list of rows, of which the
//! first that applies is answered. Rows can be moved, left out or exchanged.

use reference::card::Facts;

use crate::card::{Card, ACCESS, LEAST, SIZE, WRITTEN};
use crate::guarded::Guarded;
use crate::layouts::{is_grouped, DEPTH, LEGACY, RANGE};
use crate::library::card::Told;

use super::layout::is_valid;

/// A card as it is asked about.
pub struct Asked {
    pub length: usize,
    /// Its bytes, or zeros where it is too short.
    pub card: Card,
    pub edition: u8,
}

/// A refusal's number and when it is given, in reading.
pub type Row = (i64, fn(&Asked) -> bool);

pub const READING: [Row; 8] = [
    (1, |asked| asked.length != SIZE),
    (7, |asked| !is_known(asked.edition)),
    (9, |asked| asked.card[LEAST] == 0),
    (8, |asked| asked.card[LEAST] > asked.edition),
    (9, |asked| !is_good_to_byte_23(&asked.card)),
    (16, |asked| is_odd(&stated(&asked.card, 0))),
    (10, |asked| asked.is_from_2_on() && asked.card[ACCESS] > 2),
    (9, |asked| {
        let last = &asked.card[ACCESS..];
        match asked.card[WRITTEN] {
            1 => last.iter().any(|&byte| byte != 0),
            _ => asked.is_from_2_on() && last[1..].iter().any(|&byte| byte != 0),
        }
    }),
];

/// A refusal's number and when it is given, in writing at an edition to room of a
/// length.
pub type WritingRow = (i64, fn(u8, &Facts, usize) -> bool);

pub const WRITING: [WritingRow; 5] = [
    (7, |edition, _, _| !is_known(edition)),
    (9, |_, facts, _| {
        !is_valid(facts.layout)
            || outside(facts.width, facts.height, facts.item)
            || facts.access > 2
    }),
    (16, |_, facts, _| is_odd(facts)),
    (11, |edition, facts, _| {
        lacks_layout(edition, facts) || lacks_access(edition, facts)
    }),
    (13, |_, _, room| room != SIZE),
];

/// The access that an accepted card shows.
pub type Shown = fn(&Asked) -> u8;

impl Asked {
    pub fn new(bytes: &[u8], edition: u8) -> Asked {
        let mut card = [0; SIZE];
        let length = bytes.len().min(SIZE);
        card[..length].copy_from_slice(&bytes[..length]);
        Asked {
            length: bytes.len(),
            card,
            edition,
        }
    }

    /// Whether it was written at 2 or later, and not later than it is read.
    pub fn is_from_2_on(&self) -> bool {
        (2..=self.edition).contains(&self.card[WRITTEN])
    }
}

pub fn is_known(edition: u8) -> bool {
    [1, 2, 3, 4].contains(&edition)
}

pub fn lacks_layout(edition: u8, facts: &Facts) -> bool {
    let older = facts.layout[RANGE] == LEGACY;
    let groups = is_grouped(facts.layout);
    match edition {
        1 => facts.layout[DEPTH] == 12 || older || groups,
        2 => older || groups,
        3 => groups,
        _ => false,
    }
}

/// Whether a line of the picture is not of whole groups.
pub fn is_odd(facts: &Facts) -> bool {
    is_grouped(facts.layout) && facts.width & 1 == 1
}

pub fn lacks_access(edition: u8, facts: &Facts) -> bool {
    edition == 1 && facts.access != 0
}

pub fn shown(asked: &Asked) -> u8 {
    match asked.card[ACCESS] {
        access @ 1..=2 if asked.edition != 1 => access,
        _ => 0,
    }
}

/// Reads with the given rows and access.
pub fn read(
    card: &mut Guarded<u8>,
    edition: u8,
    told: &mut Told,
    rows: &[Row],
    shown: Shown,
) -> i64 {
    let asked = Asked::new(card.elements(), edition);
    let refusal = refusal(&asked, rows);
    if refusal == 0 {
        told.store(stated(&asked.card, shown(&asked)));
    }
    refusal
}

/// Minus the number of the first row that applies, or 0.
pub fn refusal(asked: &Asked, rows: &[Row]) -> i64 {
    match rows.iter().find(|(_, applies)| applies(asked)) {
        Some((number, _)) => -number,
        None => 0,
    }
}

/// Writes with the given rows, and a byte 0.
pub fn written(
    edition: u8,
    facts: Facts,
    out: &mut Guarded<u8>,
    rows: &[WritingRow],
    least: fn(u8, Facts) -> u8,
) -> i64 {
    let room = out.length();
    if let Some((number, _)) = rows
        .iter()
        .find(|(_, applies)| applies(edition, &facts, room))
    {
        return -number;
    }
    let [model, primaries, range, depth, bytes, first, second, third, sampling] = facts.layout;
    let mut card = vec![least(edition, facts), edition];
    card.extend([model, primaries, range, depth, bytes, sampling]);
    card.extend([first, second, third, 0]);
    for side in [facts.width, facts.height] {
        card.extend([side as u8, (side >> 8) as u8]);
    }
    card.extend((0..8).map(|place| (facts.item >> (8 * place)) as u8));
    card.extend([facts.access, 0, 0, 0, 0, 0, 0, 0]);
    out.output().copy_from_slice(&card);
    0
}

/// Byte 0 of facts that are valid.
pub fn least(_: u8, facts: Facts) -> u8 {
    let editions = 1..=4;
    editions
        .filter(|&edition| !lacks_layout(edition, &facts))
        .fold(4, u8::min)
}

/// Rewrites with the given rows and access: the bytes up to 23 are the same but for
/// the edition that writes them.
pub fn rewritten(
    card: &mut Guarded<u8>,
    edition: u8,
    out: &mut Guarded<u8>,
    rows: &[Row],
    shown: Shown,
) -> i64 {
    let asked = Asked::new(card.elements(), edition);
    match refusal(&asked, rows) {
        0 if out.length() != SIZE => -13,
        0 => {
            let mut card = asked.card;
            card[WRITTEN] = edition;
            card[ACCESS..].fill(0);
            card[ACCESS] = shown(&asked);
            out.output().copy_from_slice(&card);
            0
        }
        refusal => refusal,
    }
}

/// The facts that a card states, good or not.
pub fn stated(card: &Card, access: u8) -> Facts {
    Facts {
        layout: [2, 3, 4, 5, 6, 8, 9, 10, 7].map(|place| card[place]),
        width: u16::from(card[12]) + 256 * u16::from(card[13]),
        height: u16::from(card[14]) + 256 * u16::from(card[15]),
        item: (0..8)
            .map(|place| u64::from(card[16 + place]) << (8 * place))
            .sum(),
        access,
    }
}

fn is_good_to_byte_23(card: &Card) -> bool {
    let facts = stated(card, 0);
    card[WRITTEN] >= card[LEAST]
        && card[LEAST] == least(card[WRITTEN], facts)
        && card[11] == 0
        && !outside(facts.width, facts.height, facts.item)
        && is_valid(facts.layout)
}

fn outside(width: u16, height: u16, item: u64) -> bool {
    let side_outside = |side| side == 0 || side > 4096;
    side_outside(width) || side_outside(height) || item == 0
}
