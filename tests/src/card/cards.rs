//! The facts and cards that are tried.

use reference::card::{self, Facts};

use crate::layouts::{self, is_grouped, DEPTH, LEGACY, RANGE};
use crate::library::Layout;

use super::{Card, ACCESS, KNOWN_EDITIONS, LEAST, SIZE, WRITTEN};

/// What cards state, right or wrong: byte 0, byte 1, bytes of a field, the access, and the
/// place of a byte after it that is not zero.
pub struct Stated<'a> {
    pub least: &'a [u8],
    pub written: &'a [u8],
    pub fields: &'a [&'a [(usize, u8)]],
    pub access: &'a [u8],
    pub after: &'a [Option<usize>],
}

impl Stated<'_> {
    /// The cards of facts that state each of these beside each of the others.
    pub fn cards(&self, facts: Facts) -> Vec<Card> {
        let mut stated = Vec::new();
        for &least in self.least {
            for &written in self.written {
                for &field in self.fields {
                    for &access in self.access {
                        for &after in self.after {
                            let mut card = written_at(written, facts);
                            card[LEAST] = least;
                            card[ACCESS] = access;
                            for &(place, byte) in field {
                                card[place] = byte;
                            }
                            if let Some(place) = after {
                                card[place] = 1;
                            }
                            stated.push(card);
                        }
                    }
                }
            }
        }
        stated
    }
}

/// What a layout needs an edition for.
#[derive(Clone, Copy)]
enum Kind {
    /// A depth, in narrow or full range.
    Depth(u8),
    /// A depth in the older full range.
    Older(u8),
    Groups,
}

const KINDS: [Kind; 7] = [
    Kind::Depth(8),
    Kind::Depth(10),
    Kind::Depth(12),
    Kind::Older(8),
    Kind::Older(10),
    Kind::Older(12),
    Kind::Groups,
];

const SIDES: [[u16; 2]; 5] = [[720, 576], [1, 4096], [4096, 1], [256, 257], [4095, 2]];
const ITEMS: [u64; 5] = [7, u64::MAX, 0x0102_0304_0506_0708, 1 << 56, 1];

/// A layout of each depth in narrow or full range. Edition 1 has those of 8 and 10
/// bits, edition 2 has all.
pub fn layout(depth: u8) -> Layout {
    Kind::Depth(depth).layouts()[0]
}

/// The same in the older full range, which edition 3 has.
pub fn older(depth: u8) -> Layout {
    Kind::Older(depth).layouts()[0]
}

/// Groups, which edition 4 has.
pub fn groups() -> Layout {
    Kind::Groups.layouts()[0]
}

/// Layouts of every depth, in the older full range and not, and groups.
pub fn layouts() -> [Layout; KINDS.len()] {
    KINDS.map(|kind| kind.layouts()[0])
}

/// Facts that are closed, so that every edition writes them at 8 and 10 bits.
pub fn facts(depth: u8) -> Facts {
    facts_in_turn(layout(depth), 0)
}

/// Closed facts; sizes and items take turns. The widths of groups are even.
pub fn facts_in_turn(layout: Layout, turn: usize) -> Facts {
    let [width, height] = SIDES[turn % SIDES.len()];
    Facts {
        layout,
        width: match is_grouped(layout) {
            true => width.next_multiple_of(2),
            false => width,
        },
        height,
        item: ITEMS[turn / SIDES.len() % ITEMS.len()],
        access: card::CLOSED,
    }
}

/// The least edition that has a layout.
pub fn least(layout: Layout) -> u8 {
    match (layout[RANGE], layout[DEPTH]) {
        _ if is_grouped(layout) => 4,
        (LEGACY, _) => 3,
        (_, 12) => 2,
        _ => 1,
    }
}

/// The card of facts that edition 2 writes or, if it has not their layout, a later one.
pub fn card(facts: Facts) -> Card {
    let mut card = [0; SIZE];
    let edition = least(facts.layout).max(2);
    card::write(edition, facts, &mut card).expect("facts that the edition writes");
    card
}

/// That card as if another edition had written it.
pub fn written_at(written: u8, facts: Facts) -> Card {
    let mut card = card(facts);
    card[WRITTEN] = written;
    card
}

/// Cards that are accepted at edition 4, of every depth, in the older full range and
/// not, and of groups, from every edition and from later ones, with every access number
/// that is known and, from later ones, some that are not. Of the later ones, every second
/// has bytes after the access.
pub fn chosen() -> Vec<Card> {
    let mut cards = Vec::new();
    for kind in KINDS {
        let layouts = kind.layouts();
        for written in KNOWN_EDITIONS.into_iter().chain([5, 255]) {
            let is_later = !KNOWN_EDITIONS.contains(&written);
            let numbers: &[u8] = match written {
                _ if written < least(layouts[0]) => &[],
                1 => &[0],
                _ if is_later => &[0, 1, 2, 3, 255],
                _ => &[0, 1, 2],
            };
            for &access in numbers {
                let turn = cards.len();
                let facts = facts_in_turn(layouts[turn % layouts.len()], turn);
                let mut card = written_at(written, facts);
                card[ACCESS] = access;
                if is_later && turn % 2 == 1 {
                    card[ACCESS + 1..].fill(turn as u8);
                }
                cards.push(card);
            }
        }
    }
    cards
}

impl Kind {
    /// One layout of each size of points, with gaps; or groups of each range.
    fn layouts(self) -> Vec<Layout> {
        match self {
            Kind::Depth(depth) => in_range(depth, |range| if range == LEGACY { 2 } else { range }),
            Kind::Older(depth) => in_range(depth, |_| LEGACY),
            Kind::Groups => layouts::groups_of_each_range().collect(),
        }
    }
}

/// One layout of a depth of each size, in another range.
fn in_range(depth: u8, other: fn(u8) -> u8) -> Vec<Layout> {
    layouts::one_of_each_size()
        .filter(|layout| layout[DEPTH] == depth)
        .map(|mut layout| {
            layout[RANGE] = other(layout[RANGE]);
            layout
        })
        .collect()
}
