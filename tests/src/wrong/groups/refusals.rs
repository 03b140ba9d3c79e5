//! Mistakes in what is refused where groups are made, in which order, and in lent memory,
//! made in packing and in encoding.

use reference::lines;

use crate::clamped::{counted, Clamped};
use crate::guarded::Guarded;
use crate::layouts::is_grouped;
use crate::library::{Layout, CUTS};
use crate::lines::{answer, expected_encode_line, expected_pack_line};

use super::super::encode::encodes;
use super::super::pack::packs;
use super::super::Wrong;
use super::{answered, as_points, Asked};
use super::{at_most_2048, count_of_bytes, count_of_groups, groups_refused};

macro_rules! answering {
    ($($mistake:literal: $answer:expr,)*) => {
        pub const ANSWERS: &[Wrong] = &[$(
            packs(concat!($mistake, ", packing"), |layout, codes, out| {
                let asked = packing(layout, codes, out);
                answered(&asked, out, |out| expected_pack_line(layout, codes, out), $answer)
            }),
            encodes(concat!($mistake, ", encoding"), |layout, values, out| {
                let asked = encoding(layout, values, out);
                answered(&asked, out, |out| expected_encode_line(layout, values, out), $answer)
            }),
        )*];
    };
}

answering! {
    // Counts.
    "the count of groups for points": count_of_groups,
    "the count of bytes of groups": count_of_bytes,
    "2,048 points at most in groups": at_most_2048,
    "no groups refused": |answer, _| match answer {
        0 => -16,
        _ => answer,
    },
    "groups refused": groups_refused,
    // Another number for 16.
    "an odd count given 13": |answer, _| match answer {
        -16 => -13,
        _ => answer,
    },
    "an odd count given 9": |answer, _| match answer {
        -16 => -9,
        _ => answer,
    },
    "4,097 points given 13": |answer, asked| match answer {
        -16 if asked.elements == 3 * 4097 => -13,
        _ => answer,
    },
    "an odd count above 4,096 given 13": |answer, asked| match answer {
        -16 if asked.elements > 3 * 4096 => -13,
        _ => answer,
    },
    "one point given 13": |answer, asked| match answer {
        -16 if asked.elements == 3 => -13,
        _ => answer,
    },
    // 16 where it is not.
    "16 for no whole points": |answer, asked| match answer {
        -13 if asked.elements % 3 != 0 => -16,
        _ => answer,
    },
    "16 for no whole groups": |answer, asked| match answer {
        -13 if asked.elements % 6 != 0 => -16,
        _ => answer,
    },
    "16 for an odd number of elements": |answer, asked| match answer {
        -13 if asked.elements % 2 == 1 => -16,
        _ => answer,
    },
    "16 for 4,098 points": |answer, asked| match answer {
        -13 if asked.elements == 3 * 4098 => -16,
        _ => answer,
    },
    "16 for more than 4,096 points": |answer, asked| match answer {
        -13 if asked.elements > 3 * 4096 => -16,
        _ => answer,
    },
    "16 for an output of no whole groups": |answer, asked| match answer {
        -13 if asked.bytes % 4 != 0 => -16,
        _ => answer,
    },
    "16 for an odd number of groups": |answer, asked| match answer {
        0.. if asked.elements % 12 == 6 => -16,
        _ => answer,
    },
    "14 for a float, 12 for a code": |answer, _| match answer {
        -12 => -14,
        -14 => -12,
        _ => answer,
    },
    // The order.
    "16 after 13 for an output": |answer, asked| match answer {
        -16 if 3 * asked.bytes != 2 * asked.elements => -13,
        _ => answer,
    },
    "16 after 13 for no room": |answer, asked| match answer {
        -16 if asked.bytes == 0 => -13,
        _ => answer,
    },
    "16 after 12 or 14": |answer, asked| match (answer, asked.bad) {
        (-16, Some(bad)) => bad,
        _ => answer,
    },
    "13 after 12 or 14 in groups": |answer, asked| match (answer, asked.bad) {
        (-13, Some(bad)) => bad,
        _ => answer,
    },
    "16 before 9": |answer, asked| match answer {
        -9 if asked.is_odd() => -16,
        _ => answer,
    },
    "13 before 9 in groups": |answer, asked| match answer {
        -9 if asked.elements % 3 != 0 => -13,
        _ => answer,
    },
    "12 or 14 before 9 in groups": |answer, asked| match (answer, asked.bad) {
        (-9, Some(bad)) => bad,
        _ => answer,
    },
}

/// Lines that are made though they are refused: of how many elements instead. An output
/// is filled as far as these go.
macro_rules! accepting {
    ($($mistake:literal: $instead:expr,)*) => {
        pub const ACCEPTED: &[Wrong] = &[$(
            packs(concat!($mistake, ", packing"), |layout, codes, out| {
                let right = expected_pack_line(layout, codes, out);
                let codes = instead(codes, $instead);
                match out.output().get_mut(..codes.len() / 6 * 4) {
                    Some(part) if right != -9 && is_grouped(layout) => {
                        answer(lines::pack_line(layout, &codes, part))
                    }
                    _ => right,
                }
            }),
            encodes(concat!($mistake, ", encoding"), |layout, values, out| {
                let right = expected_encode_line(layout, values, out);
                let values = instead(values, $instead);
                match out.made.output().get_mut(..values.len() / 6 * 4) {
                    Some(part) if right != -9 && is_grouped(layout) => {
                        let bits: Vec<u32> = values.iter().map(|value| value.to_bits()).collect();
                        counted(lines::encode_line(layout, &bits, part), &mut out.cuts)
                    }
                    _ => right,
                }
            }),
        )*];
    };
}

accepting! {
    "an odd count's last point left out": |elements| match elements % 6 {
        3 => elements - 3,
        _ => elements,
    },
    "an odd count's last point taken twice": |elements| match elements % 6 {
        3 => elements + 3,
        _ => elements,
    },
    "elements of no whole group left out": |elements| elements / 6 * 6,
    "what is beyond 4,096 points left out": |elements| elements.min(3 * 4096),
}

/// Another way with a layout or with memory.
pub const OTHERS: &[Wrong] = &[
    packs("groups packed as points", |layout, codes, out| {
        expected_pack_line(as_points(layout), codes, out)
    }),
    encodes("groups encoded as points", |layout, values, out| {
        expected_encode_line(as_points(layout), values, out)
    }),
    packs(
        "cleared before 16 is found, packing",
        |layout, codes, out| {
            let answer = expected_pack_line(layout, codes, out);
            if answer == -16 {
                out.output().fill(0);
            }
            answer
        },
    ),
    encodes(
        "cleared before 16 is found, encoding",
        |layout, values, out| {
            let answer = expected_encode_line(layout, values, out);
            if answer == -16 {
                out.output().fill(0);
            }
            answer
        },
    ),
    encodes(
        "cuts cleared on refusal 16, encoding",
        |layout, values, out| {
            let answer = expected_encode_line(layout, values, out);
            if answer == -16 {
                out.cuts[CUTS] = 0;
            }
            answer
        },
    ),
    packs("a group stored before 14 is found", |layout, codes, out| {
        let answer = expected_pack_line(layout, codes, out);
        if answer == -14 && is_grouped(layout) {
            out.output()[0] = codes[1] as u8;
        }
        answer
    }),
    encodes(
        "a group stored before 12 is found",
        |layout, values, out| {
            let answer = expected_encode_line(layout, values, out);
            if answer == -12 && is_grouped(layout) {
                out.output()[0] = 128;
            }
            answer
        },
    ),
];

/// 16 where no groups are.
pub const OF_POINTS: &[Wrong] = &[
    packs(
        "16 for points of their own, packing",
        |layout, codes, out| match expected_pack_line(layout, codes, &mut out.clone()) {
            1.. if codes.len() % 6 == 3 => -16,
            _ => expected_pack_line(layout, codes, out),
        },
    ),
    encodes(
        "16 for points of their own, encoding",
        |layout, values, out| match expected_encode_line(layout, values, &mut out.clone()) {
            1.. if values.len() % 6 == 3 => -16,
            _ => expected_encode_line(layout, values, out),
        },
    ),
];

fn packing(layout: Layout, codes: &[u16], out: &Guarded<u8>) -> Asked {
    Asked {
        layout,
        bytes: out.length(),
        elements: codes.len(),
        bad: codes.iter().any(|&code| code > 255).then_some(-14),
    }
}

fn encoding(layout: Layout, values: &[f32], out: &Clamped<u8>) -> Asked {
    Asked {
        layout,
        bytes: out.length(),
        elements: values.len(),
        bad: values.iter().any(|value| value.is_nan()).then_some(-12),
    }
}

/// So many of the elements; if there are too few, the last point again.
fn instead<T: Copy>(elements: &[T], length: fn(usize) -> usize) -> Vec<T> {
    let length = length(elements.len());
    let last = elements.len().saturating_sub(3);
    let again = elements[last..].iter();
    elements.iter().chain(again).take(length).copied().collect()
}
