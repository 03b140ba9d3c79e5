//! Mistakes in reading lines of groups, made in unpacking and in decoding.

use reference::lines::{decode_line, unpack_line};

use crate::layouts::is_grouped;
use crate::library::Layout;
use crate::lines::{answer, expected_decode_line, expected_unpack_line};
use crate::plain::lines::{channel, unpacked};

use super::super::decode::decodes;
use super::super::unpack::unpacks;
use super::super::Wrong;
use super::{answered, as_points, changed, decoded, placed, Asked};
use super::{at_most_2048, count_of_bytes, count_of_groups, groups_refused};

/// The bytes of the codes Y', Cb, Cr, Y', Cb, Cr.
macro_rules! misplaced {
    ($($mistake:literal: $bytes:expr,)*) => {
        pub const PLACES: &[Wrong] = &[$(
            unpacks(concat!($mistake, ", unpacking"), |layout, packed, out| {
                unpacked(layout, packed, out, |layout, code, bit| {
                    placed(layout, code, bit, $bytes)
                })
            }),
            decodes(concat!($mistake, ", decoding"), |layout, packed, out| {
                let place = |layout, code, bit| placed(layout, code, bit, $bytes);
                decoded(layout, packed, out, place, channel)
            }),
        )*];
    };
}

misplaced! {
    "the first point's brightness for both": [1, 0, 2, 1, 0, 2],
    "the second point's brightness for both": [3, 0, 2, 3, 0, 2],
    "Cb for both differences": [1, 0, 0, 3, 0, 0],
    "Cr for both differences": [1, 2, 2, 3, 2, 2],
    "differences exchanged in the second point": [1, 0, 2, 3, 2, 0],
    "the second point's colour from the bytes after its own": [1, 0, 2, 3, 2, 3],
}

/// What becomes of the six elements of a group, with what they were before.
macro_rules! mistaken {
    ($($mistake:literal: $change:expr,)*) => {
        pub const CHANGES: &[Wrong] = &[$(
            unpacks(concat!($mistake, ", unpacking"), |layout, packed, out| {
                changed(layout, out, |out| expected_unpack_line(layout, packed, out), $change)
            }),
            decodes(concat!($mistake, ", decoding"), |layout, packed, out| {
                changed(layout, out, |out| expected_decode_line(layout, packed, out), $change)
            }),
        )*];
    };
}

mistaken! {
    "no colour in the second point": |made, _| made[4..].fill(0),
    "the second point's colour not stored": |made, before| {
        made[4..].copy_from_slice(&before[4..]);
    },
    "the second point not stored": |made, before| made[3..].copy_from_slice(&before[3..]),
    "the first point not stored": |made, before| made[..3].copy_from_slice(&before[..3]),
    "the first point twice": |made, _| made.copy_within(..3, 3),
    "the second point twice": |made, _| made.copy_within(3.., 0),
    "all brightness first": |made, _| made[1..4].rotate_right(1),
}

macro_rules! answering {
    ($($mistake:literal: $answer:expr,)*) => {
        pub const ANSWERS: &[Wrong] = &[$(
            unpacks(concat!($mistake, ", unpacking"), |layout, packed, out| {
                let asked = asked(layout, packed.len(), out.length());
                answered(&asked, out, |out| expected_unpack_line(layout, packed, out), $answer)
            }),
            decodes(concat!($mistake, ", decoding"), |layout, packed, out| {
                let asked = asked(layout, packed.len(), out.length());
                answered(&asked, out, |out| expected_decode_line(layout, packed, out), $answer)
            }),
        )*];
    };
}

answering! {
    "the count of groups for points": count_of_groups,
    "the count of bytes of groups": count_of_bytes,
    "the count of codes of groups": |answer, asked| match answer {
        0.. => asked.elements as i64,
        _ => answer,
    },
    "2,048 points at most in groups": at_most_2048,
    "no groups refused": |answer, _| match answer {
        0 => -13,
        _ => answer,
    },
    "groups refused": groups_refused,
    "16 for bytes of no whole groups": |answer, asked| match answer {
        -13 if asked.bytes % 4 != 0 => -16,
        _ => answer,
    },
    "16 for bytes of an odd count": |answer, asked| match answer {
        -13 if asked.bytes % 4 == 2 => -16,
        _ => answer,
    },
    "16 for an output of an odd count": |answer, asked| match answer {
        -13 if asked.is_odd() => -16,
        _ => answer,
    },
    "9 for bytes of no whole groups": |answer, asked| match answer {
        -13 if asked.bytes % 4 != 0 => -9,
        _ => answer,
    },
}

/// Lines that are read though they are refused.
macro_rules! accepting {
    ($($mistake:literal: $accepts:expr,)*) => {
        pub const ACCEPTED: &[Wrong] = &[$(
            unpacks(concat!($mistake, ", unpacking"), |layout, packed, out| {
                match expected_unpack_line(layout, packed, out) {
                    -13 if accepts(layout, packed.len(), out.length(), $accepts) => {
                        // Part by part, as far as whole groups go.
                        let parts = packed.chunks(8192).zip(out.output().chunks_mut(3 * 4096));
                        parts.for_each(|(packed, out)| {
                            let groups = (packed.len() / 4).min(out.len() / 6);
                            let (packed, out) = (&packed[..4 * groups], &mut out[..6 * groups]);
                            answer(unpack_line(layout, packed, out));
                        });
                        packed.len() as i64 / 2
                    }
                    answer => answer,
                }
            }),
            decodes(concat!($mistake, ", decoding"), |layout, packed, out| {
                match expected_decode_line(layout, packed, out) {
                    -13 if accepts(layout, packed.len(), out.length(), $accepts) => {
                        let parts = packed.chunks(8192).zip(out.output().chunks_mut(3 * 4096));
                        parts.for_each(|(packed, out)| {
                            let groups = (packed.len() / 4).min(out.len() / 6);
                            let (packed, out) = (&packed[..4 * groups], &mut out[..6 * groups]);
                            answer(decode_line(layout, packed, out));
                        });
                        packed.len() as i64 / 2
                    }
                    answer => answer,
                }
            }),
        )*];
    };
}

accepting! {
    "half a group taken for a point": |bytes, elements| {
        bytes % 4 == 2 && bytes <= 8192 && elements == bytes / 2 * 3
    },
    "4,098 points of groups read": |bytes, elements| [bytes, elements] == [8196, 12_294],
    "4,096 groups read": |bytes, elements| {
        bytes % 4 == 0 && bytes <= 16_384 && elements == bytes / 2 * 3
    },
    "the last bytes of no whole group passed over": |bytes, elements| {
        bytes <= 8195 && elements == bytes / 4 * 6
    },
    "room for one point of a group enough": |bytes, elements| {
        bytes % 4 == 0 && bytes <= 8192 && elements + 3 == bytes / 2 * 3
    },
    "a too long output of groups accepted": |bytes, elements| {
        bytes % 4 == 0 && bytes <= 8192 && elements > bytes / 2 * 3
    },
}

/// A group as a point of the same bytes.
pub const AS_POINTS: &[Wrong] = &[
    unpacks("groups unpacked as points", |layout, packed, out| {
        expected_unpack_line(as_points(layout), packed, out)
    }),
    decodes("groups decoded as points", |layout, packed, out| {
        expected_decode_line(as_points(layout), packed, out)
    }),
];

fn asked(layout: Layout, bytes: usize, elements: usize) -> Asked {
    Asked {
        layout,
        bytes,
        elements,
        bad: None,
    }
}

fn accepts(
    layout: Layout,
    bytes: usize,
    elements: usize,
    accepts: fn(usize, usize) -> bool,
) -> bool {
    is_grouped(layout) && accepts(bytes, elements)
}
