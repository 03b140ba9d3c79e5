//! Mistakes in the card and the points that an import makes.

use crate::card::{ACCESS, LEAST, WRITTEN};
use crate::guarded::Guarded;
use crate::picture::expected_import;
use crate::plain::picture::{imported, layout, load, Importing, IMPORTING};

use super::super::Wrong;
use super::imports;

macro_rules! in_pieces {
    ($($mistake:literal: $piece:ident: $wrong:expr,)*) => {
        pub const WRONG: &[Wrong] = &[$(
            imports($mistake, |ppm, item, primaries, made| {
                let pieces = Importing { $piece: $wrong, ..IMPORTING };
                imported(ppm, item, primaries, made, &pieces)
            }),
        )*];
    };
}

in_pieces! {
    // The card.
    "an imported card is open": card: |card| card[ACCESS] = 2,
    "an imported card is for the community": card: |card| card[ACCESS] = 1,
    "an imported card written at the newest edition": card: |card| card[WRITTEN] = 4,
    "an imported card written at 1": card: |card| card[WRITTEN] = 1,
    "an imported card written at its least edition": card: |card| card[WRITTEN] = card[LEAST],
    "an imported card for editions from 2": card: |card| card[LEAST] = 2,
    "an imported card for edition 1": card: |card| card[LEAST] = 1,
    "an imported card's sides exchanged": card: |card| {
        card.swap(12, 14);
        card.swap(13, 15);
    },
    "an imported card's sides with the high byte first": card: |card| {
        card.swap(12, 13);
        card.swap(14, 15);
    },
    "an imported card's item in 32 bits": card: |card| card[20..24].fill(0),
    "an imported card's item with the high byte first": card: |card| card[16..24].reverse(),
    "an imported card's item is 1": card: |card| {
        card[16..24].copy_from_slice(&[1, 0, 0, 0, 0, 0, 0, 0]);
    },
    "an imported card's range is narrow": card: |card| card[4] = 1,
    "an imported card's model is Y'CbCr": card: |card| card[2] = 2,
    "an imported card of BT.709": card: |card| card[3] = 1,
    "an imported card's last byte is 1": card: |card| card[31] = 1,
    // Both card and points.
    "blue first": layout: |depth, primaries| {
        let [_, _, _, _, bytes, ..] = layout(depth, primaries);
        [1, primaries, 2, depth, bytes, 2 * depth, depth, 0, 0]
    },
    "green first": layout: |depth, primaries| {
        let [_, _, _, _, bytes, ..] = layout(depth, primaries);
        [1, primaries, 2, depth, bytes, depth, 0, 2 * depth, 0]
    },
    "codes at the point's top": layout: |depth, primaries| {
        let [_, _, _, _, bytes, ..] = layout(depth, primaries);
        let top = 8 * bytes - depth;
        [1, primaries, 2, depth, bytes, top - 2 * depth, top - depth, top, 0]
    },
    "12 bits in 6 bytes": layout: |depth, primaries| wider(depth, primaries, 12, 6),
    "12 bits in 6 bytes, two a code": layout: |depth, primaries| match depth {
        12 => [1, primaries, 2, 12, 6, 0, 16, 32, 0],
        _ => layout(depth, primaries),
    },
    "10 bits in 5 bytes": layout: |depth, primaries| wider(depth, primaries, 10, 5),
    "10 bits in 6 bytes": layout: |depth, primaries| wider(depth, primaries, 10, 6),
    "8 bits in 4 bytes": layout: |depth, primaries| wider(depth, primaries, 8, 4),
    // The points.
    "the low byte first, importing": load: |bytes| match *bytes {
        [low, high] => load(&[high, low]) & 4095,
        _ => load(bytes),
    },
    "the low byte alone": load: |bytes| bytes.last().copied().map_or(0, u16::from),
    "codes of 12 bits in 11": load: |bytes| load(bytes) & 2047,
}

/// A depth in so many bytes a point.
fn wider(depth: u8, primaries: u8, widened: u8, bytes: u8) -> [u8; 9] {
    let mut layout = layout(depth, primaries);
    if depth == widened {
        layout[4] = bytes;
    }
    layout
}

/// What is stored of card and points: as they are made, as their rooms were before, and by the
/// bytes of a point.
macro_rules! stored {
    ($($mistake:literal: $change:expr,)*) => {
        pub const STORED: &[Wrong] = &[$(
            imports($mistake, |ppm, item, primaries, made| {
                let before = made.clone();
                let answer = expected_import(ppm, item, primaries, made);
                if let Ok(points @ 1..) = usize::try_from(answer) {
                    let each = made.packed.length() / points;
                    let change: fn([&mut Guarded<u8>; 2], [&Guarded<u8>; 2], usize) = $change;
                    let before = [&before.card, &before.packed];
                    change([&mut made.card, &mut made.packed], before, each);
                }
                answer
            }),
        )*];
    };
}

stored! {
    "the access that lay in the room": |[card, _], [before, _], _| {
        card.output()[ACCESS] = before.elements()[ACCESS];
    },
    "bytes 25 to 31 as they lay in the room": |[card, _], [before, _], _| {
        card.output()[ACCESS + 1..].copy_from_slice(&before.elements()[ACCESS + 1..]);
    },
    "byte 11 as it lay in the room": |[card, _], [before, _], _| {
        card.output()[11] = before.elements()[11];
    },
    "no card": |[card, _], [before, _], _| *card = before.clone(),
    "no points": |[_, packed], [_, before], _| *packed = before.clone(),
    "unused bits as they lay in the room": |[_, packed], [_, before], each| {
        let last = if each == 3 { 0 } else { 0xf0 & (0xc0 | ((each as u8 - 4) * 0x30)) };
        let places = (each - 1..packed.length()).step_by(each);
        for place in places {
            packed.output()[place] |= before.elements()[place] & last;
        }
    },
    "the last point not imported": |[_, packed], [_, before], each| {
        let last = packed.length() - each;
        packed.output()[last..].copy_from_slice(&before.elements()[last..]);
    },
    "points after the last whole 64 not imported": |[_, packed], [_, before], each| {
        whole_blocks(packed, before, 64 * each);
    },
    "points after the last whole 256 not imported": |[_, packed], [_, before], each| {
        whole_blocks(packed, before, 256 * each);
    },
    "points above 4,096 not imported": |[_, packed], [_, before], each| {
        let most = packed.length().min(4096 * each);
        packed.output()[most..].copy_from_slice(&before.elements()[most..]);
    },
    "points with the high byte first": |[_, packed], _, each| {
        packed.output().chunks_mut(each).for_each(<[u8]>::reverse);
    },
    "a byte after the points changed": |[_, packed], _, _| {
        let length = packed.length();
        packed.output_and_beyond()[length] ^= 1;
    },
    "a byte after the card changed": |[card, _], _, _| card.output_and_beyond()[32] ^= 1,
}

fn whole_blocks(packed: &mut Guarded<u8>, before: &Guarded<u8>, block: usize) {
    let whole = packed.length() / block * block;
    if whole > 0 {
        packed.output()[whole..].copy_from_slice(&before.elements()[whole..]);
    }
}

/// Other answers.
pub const ANSWERS: &[Wrong] = &[
    imports(
        "0 for the count of imported points",
        |ppm, item, primaries, made| expected_import(ppm, item, primaries, made).min(0),
    ),
    imports(
        "the bytes for the count of imported points",
        |ppm, item, primaries, made| match expected_import(ppm, item, primaries, made) {
            1.. => made.packed.length() as i64,
            refusal => refusal,
        },
    ),
    imports(
        "the width for the count of imported points",
        |ppm, item, primaries, made| match expected_import(ppm, item, primaries, made) {
            1.. => i64::from(made.card.elements()[12]) + 256 * i64::from(made.card.elements()[13]),
            refusal => refusal,
        },
    ),
    imports(
        "no import of over 4,096 points",
        |ppm, item, primaries, made| match expected_import(ppm, item, primaries, &mut made.clone())
        {
            4097.. => -13,
            _ => expected_import(ppm, item, primaries, made),
        },
    ),
];
