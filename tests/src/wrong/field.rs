//! Mistakes in which bytes hold a field, made in telling them and in taking a code
//! from them.

use crate::layouts::{bytes_a_point, DEPTH, OFFSETS, SAMPLING};
use crate::library::{FieldBytes, FieldCode, Layout, Library};
use crate::plain::field::{held, taken, told};
use crate::plain::lines::place;

use super::{Wrong, REFERENCE};

pub const WRONG: &[Wrong] = PAIRS.as_flattened();

/// Two programs: one tells these bytes, the other takes the code from them.
macro_rules! holds {
    ($mistake:literal, $held:expr) => {
        [
            tells($mistake, |layout, channel, first| {
                told(layout, channel, first, $held)
            }),
            takes($mistake, |layout, channel, bytes| {
                taken(layout, channel, bytes, $held)
            }),
        ]
    };
}

const PAIRS: &[[Wrong; 2]] = &[
    // How many.
    holds!("bytes counted by the offset alone", |layout, channel| {
        [first(layout, channel), up_to(layout, channel, 8)]
    }),
    holds!("bytes counted by the depth alone", |layout, channel| {
        let depth = usize::from(layout[DEPTH]);
        [first(layout, channel), depth.div_ceil(8)]
    }),
    holds!("bytes of 12 bits at every depth", |layout, channel| {
        [first(layout, channel), up_to(layout, channel, 12)]
    }),
    holds!("two bytes for every field", |layout, channel| {
        [first(layout, channel), 2]
    }),
    holds!("three bytes for every field", |layout, channel| {
        [first(layout, channel), 3]
    }),
    holds!("two bytes for a field in three", |layout, channel| {
        let [first, count] = held(layout, channel);
        [first, count.min(2)]
    }),
    holds!(
        "a byte more where a field ends with one",
        |layout, channel| {
            [
                first(layout, channel),
                up_to(layout, channel, layout[DEPTH] + 1),
            ]
        }
    ),
    holds!("a byte fewer for every field", |layout, channel| {
        let [first, count] = held(layout, channel);
        [first, count - 1]
    }),
    // Which.
    holds!("the whole point for every field", |layout, _| {
        [0, bytes_a_point(layout)]
    }),
    holds!("the bytes of the neighbour's field", |layout, channel| {
        held(layout, (channel + 1) % 3)
    }),
    holds!("channels counted by rising offset", |layout, channel| {
        let mut offsets = layout;
        offsets[OFFSETS..SAMPLING].sort();
        held(offsets, channel)
    }),
    holds!("a byte too early", |layout, channel| {
        let [first, count] = held(layout, channel);
        [first.saturating_sub(1), count]
    }),
];

pub const fn tells(mistake: &'static str, field_bytes: FieldBytes) -> Wrong {
    let library = Library {
        field_bytes,
        ..REFERENCE
    };
    (mistake, library)
}

pub const fn takes(mistake: &'static str, field_code: FieldCode) -> Wrong {
    let library = Library {
        field_code,
        ..REFERENCE
    };
    (mistake, library)
}

/// The place of the byte with the lowest bit.
fn first(layout: Layout, channel: usize) -> usize {
    place(layout, channel, 0) / 8
}

/// How many bytes hold so many bits from the offset on.
fn up_to(layout: Layout, channel: usize, bits: u8) -> usize {
    (place(layout, channel, 0) % 8 + usize::from(bits)).div_ceil(8)
}
