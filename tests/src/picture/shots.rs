//! The cards, points and files that are tried.

use reference::card::{Facts, OPEN};

use crate::card::{cards, Card};
use crate::layouts::{group, is_grouped, packed_length, DEPTH};
use crate::library::Layout;
use crate::random::Random;

pub const DEPTHS: [u8; 3] = [8, 10, 12];

/// The largest code of each depth.
pub fn largest(depth: u8) -> u16 {
    (1 << depth) - 1
}

/// Three fields side by side from bit 0, in as few bytes as hold them.
pub fn side_by_side(model: u8, primaries: u8, range: u8, depth: u8) -> Layout {
    let bytes = (3 * depth).div_ceil(8);
    [
        model,
        primaries,
        range,
        depth,
        bytes,
        0,
        depth,
        2 * depth,
        0,
    ]
}

/// One layout of each way to be exported: both models in narrow and full range at every
/// depth, and groups in both ranges. Primaries take turns.
pub fn every_way() -> Vec<Layout> {
    let mut layouts = Vec::new();
    for range in [1, 2] {
        for model in [1, 2] {
            for depth in DEPTHS {
                let primaries = 1 + layouts.len() as u8 % 4;
                layouts.push(side_by_side(model, primaries, range, depth));
            }
        }
        layouts.push(group(1 + range, range));
    }
    layouts
}

/// An open card. Items take turns. The width of groups is even.
pub fn open(layout: Layout, [width, height]: [u16; 2], turn: usize) -> Card {
    cards::card(facts(layout, [width, height], turn))
}

pub fn facts(layout: Layout, [width, height]: [u16; 2], turn: usize) -> Facts {
    Facts {
        width: match is_grouped(layout) {
            true => width.next_multiple_of(2),
            false => width,
        },
        height,
        access: OPEN,
        ..cards::facts_in_turn(layout, turn)
    }
}

/// The bytes of a picture's points, and of its file.
pub fn lengths(facts: &Facts) -> [usize; 2] {
    let points = usize::from(facts.width) * usize::from(facts.height);
    let depth = facts.layout[DEPTH];
    let header = header([facts.width, facts.height], largest(depth));
    [
        packed_length(facts.layout, points),
        header.len() + points * code_bytes(depth) * 3,
    ]
}

/// The bytes of a code in a file.
pub fn code_bytes(depth: u8) -> usize {
    match depth {
        8 => 1,
        _ => 2,
    }
}

pub fn header([width, height]: [u16; 2], largest: u16) -> String {
    format!("P6\n{width} {height}\n{largest}\n")
}

/// A file of codes, three a point.
pub fn file(sides: [u16; 2], depth: u8, codes: &[u16]) -> Vec<u8> {
    let mut file = header(sides, largest(depth)).into_bytes();
    for code in codes {
        let bytes = code.to_be_bytes();
        file.extend(&bytes[2 - code_bytes(depth)..]);
    }
    file
}

/// Random codes of a depth, three a point.
pub fn random_codes(random: &mut Random, [width, height]: [u16; 2], depth: u8) -> Vec<u16> {
    let codes = 3 * usize::from(width) * usize::from(height);
    (0..codes)
        .map(|_| random.next() as u16 & largest(depth))
        .collect()
}

/// Random bytes, unused bits of points among them.
pub fn random_bytes(random: &mut Random, length: usize) -> Vec<u8> {
    (0..length).map(|_| random.next() as u8).collect()
}
