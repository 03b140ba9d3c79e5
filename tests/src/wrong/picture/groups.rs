//! Mistakes in groups that are exported, which are made of Cb, Y', Cr, Y'.

use crate::card::{Card, LEAST, SAMPLING};
use crate::guarded::Guarded;
use crate::picture::expected_export;

use super::super::Wrong;
use super::exports;

macro_rules! of_groups {
    ($($mistake:literal: $points:expr,)*) => {
        pub const WRONG: &[Wrong] = &[$(
            exports($mistake, |card, edition, packed, out| {
                as_points(card, edition, packed, out, $points)
            }),
        )*];
    };
}

of_groups! {
    "a group's second point without color": |[cb, y, cr, other]| [y, cb, cr, other, 128, 128],
    "a group's first point without color": |[cb, y, cr, other]| [y, 128, 128, other, cb, cr],
    "a group's second point as its first": |[cb, y, cr, _]| [y, cb, cr, y, cb, cr],
    "a group's points exchanged": |[cb, y, cr, other]| [other, cb, cr, y, cb, cr],
    "Cb and Cr of groups exchanged": |[cb, y, cr, other]| [y, cr, cb, other, cr, cb],
    "groups that begin with Y'": |[y, cb, other, cr]| [y, cb, cr, other, cb, cr],
    "Cr for Cb in a group's second point": |[cb, y, cr, other]| [y, cb, cr, other, cr, cr],
    "the mean brightness of a group": |[cb, y, cr, other]| {
        let mean = y / 2 + other / 2 + (y & other & 1);
        [mean, cb, cr, mean, cb, cr]
    },
}

/// What is exported of a card of groups, if each of them were these two points of three bytes
/// each. The card is refused as it is.
fn as_points(
    card: &mut Guarded<u8>,
    edition: u8,
    packed: &mut Guarded<u8>,
    out: &mut Guarded<u8>,
    points: fn([u8; 4]) -> [u8; 6],
) -> i64 {
    let answer = expected_export(card, edition, packed, &mut out.clone());
    let groups = Card::try_from(card.elements()).map(|card| (card[SAMPLING] == 1, card));
    match groups {
        Ok((true, mut of_points)) if answer > 0 => {
            of_points[LEAST] = 1;
            of_points[6..11].copy_from_slice(&[3, 0, 0, 8, 16]);
            let (groups, _) = packed.elements().as_chunks();
            let made: Vec<u8> = groups.iter().flat_map(|&group| points(group)).collect();
            let (mut card, mut made) = (Guarded::holding(&of_points), Guarded::holding(&made));
            expected_export(&mut card, edition, &mut made, out)
        }
        _ => expected_export(card, edition, packed, out),
    }
}
