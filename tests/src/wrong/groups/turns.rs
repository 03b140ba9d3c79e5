//! Mistakes in where a line of groups ends, made in all four functions on lines.

use crate::layouts::is_grouped;
use crate::lines::{
    expected_decode_line, expected_encode_line, expected_pack_line, expected_unpack_line,
};

use super::super::decode::decodes;
use super::super::encode::encodes;
use super::super::pack::packs;
use super::super::points::{keeping_clamped_from, keeping_from};
use super::super::unpack::unpacks;
use super::super::Wrong;

/// How many groups of so many are made.
macro_rules! made {
    ($($mistake:literal: $made:expr,)*) => {
        pub const WRONG: &[Wrong] = &[$(
            unpacks(concat!($mistake, ", unpacking"), |layout, packed, out| {
                let made = if is_grouped(layout) { made(packed.len() / 4, $made) } else { ALL };
                keeping_from(6 * made, out, |out| expected_unpack_line(layout, packed, out))
            }),
            decodes(concat!($mistake, ", decoding"), |layout, packed, out| {
                let made = if is_grouped(layout) { made(packed.len() / 4, $made) } else { ALL };
                keeping_from(6 * made, out, |out| expected_decode_line(layout, packed, out))
            }),
            packs(concat!($mistake, ", packing"), |layout, codes, out| {
                let made = if is_grouped(layout) { made(codes.len() / 6, $made) } else { ALL };
                keeping_from(4 * made, out, |out| expected_pack_line(layout, codes, out))
            }),
            encodes(concat!($mistake, ", encoding"), |layout, values, out| {
                let made = if is_grouped(layout) { made(values.len() / 6, $made) } else { ALL };
                keeping_clamped_from(4 * made, out, |out| {
                    expected_encode_line(layout, values, out)
                })
            }),
        )*];
    };
}

made! {
    "only the first group made": |_| 1,
    "half the groups made": |groups| groups / 2,
    "the last group left out": |groups| groups - 1,
    "the last group of the longest line left out": |groups| groups.min(2047),
    "groups after the last two left out": |groups| groups / 2 * 2,
    "groups after the last four left out": |groups| groups / 4 * 4,
    "groups after the last eight left out": |groups| groups / 8 * 8,
    "less than four groups left out": |groups| if groups < 4 { 0 } else { groups },
    "the last of 1,023 groups left out": |groups| if groups == 1023 { 1022 } else { groups },
}

/// More groups than there are in any line.
const ALL: usize = 1 << 20;

fn made(groups: usize, made: fn(usize) -> usize) -> usize {
    match groups {
        0 => 0,
        _ => made(groups),
    }
}
