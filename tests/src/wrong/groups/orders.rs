//! Mistakes in which byte of a group is which, and on which scales its codes are, made in
//! all four functions on lines.

use crate::plain::lines::{channel, packed_by, place, unpacked, Making, MAKING};

use super::super::decode::decodes;
use super::super::encode::encodes;
use super::super::pack::packs;
use super::super::unpack::unpacks;
use super::super::Wrong;
use super::{channelled, decoded, encoded, placed};

pub const WRONG: &[Wrong] = ORDERS.as_flattened();
pub const ON_SCALES: &[Wrong] = SCALES.as_flattened();

/// The bytes of the codes Y', Cb, Cr, Y', Cb, Cr.
macro_rules! ordered {
    ($mistake:literal, $bytes:expr) => {
        [
            unpacks(concat!($mistake, ", unpacking"), |layout, packed, out| {
                unpacked(layout, packed, out, |layout, code, bit| {
                    placed(layout, code, bit, $bytes)
                })
            }),
            decodes(concat!($mistake, ", decoding"), |layout, packed, out| {
                let place = |layout, code, bit| placed(layout, code, bit, $bytes);
                decoded(layout, packed, out, place, channel)
            }),
            packs(concat!($mistake, ", packing"), |layout, codes, out| {
                let place = |layout, code, bit| placed(layout, code, bit, $bytes);
                packed_by(layout, codes, out, Making { place, ..MAKING })
            }),
            encodes(concat!($mistake, ", encoding"), |layout, values, out| {
                let place = |layout, code, bit| placed(layout, code, bit, $bytes);
                encoded(layout, values, out, Making { place, ..MAKING })
            }),
        ]
    };
}

const ORDERS: &[[Wrong; 4]] = &[
    ordered!("bytes as Y' Cb Y' Cr", [0, 1, 3, 2, 1, 3]),
    ordered!("bytes as Y' Cr Y' Cb", [0, 3, 1, 2, 3, 1]),
    ordered!("bytes as Cr Y' Cb Y'", [1, 2, 0, 3, 2, 0]),
    ordered!("bytes as Cb Y' Y' Cr", [1, 0, 3, 2, 0, 3]),
    ordered!("bytes as Y' Y' Cb Cr", [0, 2, 3, 1, 2, 3]),
    ordered!("the points of a group exchanged", [3, 0, 2, 1, 0, 2]),
];

/// The channels of the same codes.
macro_rules! scaled {
    ($mistake:literal, $channels:expr) => {
        [
            decodes(concat!($mistake, ", decoding"), |layout, packed, out| {
                decoded(layout, packed, out, place, |layout, code| {
                    channelled(layout, code, $channels)
                })
            }),
            encodes(concat!($mistake, ", encoding"), |layout, values, out| {
                let channel = |layout, code| channelled(layout, code, $channels);
                encoded(layout, values, out, Making { channel, ..MAKING })
            }),
        ]
    };
}

const SCALES: &[[Wrong; 2]] = &[
    scaled!("scales by the bytes of a group", [1, 0, 2, 0, 0, 2]),
    scaled!("all codes of a group on one scale", [0; 6]),
    scaled!("brightness on the scale of differences", [1; 6]),
    scaled!("the second point's on that of Cr", [0, 1, 2, 2, 1, 2]),
];
