//! Mistakes in the code of a field: which bits, how many bytes, and refusals.

use reference::fields;
use reference::refusal::Refusal;

use crate::field::expected_field_code;
use crate::layouts::{DEPTH, LEGACY, OFFSETS, PRIMARIES, RANGE};
use crate::library::Layout;
use crate::quantization::refused;

use super::ends::within_the_ends;
use super::field::takes;
use super::unpack::{only_overlaps, with_fields_apart};
use super::Wrong;

pub const WRONG: &[Wrong] = &[
    // Which bits.
    takes("shifted by the whole offset", |layout, channel, bytes| {
        coded(layout, channel, bytes, |number, offset, depth| {
            lowest(number.checked_shr(offset).unwrap_or(0), depth)
        })
    }),
    takes("not shifted", |layout, channel, bytes| {
        coded(layout, channel, bytes, |number, _, depth| {
            lowest(number, depth)
        })
    }),
    takes("the highest bits of its bytes", |layout, channel, bytes| {
        let bits = 8 * bytes.len() as u32;
        coded(layout, channel, bytes, |number, _, depth| {
            number >> (bits - depth)
        })
    }),
    takes(
        "bits beside the field not cut off",
        |layout, channel, bytes| {
            coded(layout, channel, bytes, |number, offset, _| {
                number >> (offset % 8)
            })
        },
    ),
    takes("8 bits at every depth", |layout, channel, bytes| {
        coded(layout, channel, bytes, |number, offset, _| {
            lowest(number >> (offset % 8), 8)
        })
    }),
    takes("12 bits at every depth", |layout, channel, bytes| {
        coded(layout, channel, bytes, |number, offset, _| {
            lowest(number >> (offset % 8), 12)
        })
    }),
    takes("the highest bit lost", |layout, channel, bytes| {
        coded(layout, channel, bytes, |number, offset, depth| {
            lowest(number >> (offset % 8), depth - 1)
        })
    }),
    takes("cut off before the shift", |layout, channel, bytes| {
        coded(layout, channel, bytes, |number, offset, depth| {
            lowest(number, depth) >> (offset % 8)
        })
    }),
    // Which bytes.
    takes("big-endian bytes", |layout, channel, bytes| {
        let turned: Vec<u8> = bytes.iter().rev().copied().collect();
        expected_field_code(layout, channel, &turned)
    }),
    takes("the third byte not looked at", |layout, channel, bytes| {
        let mut bytes = bytes.to_vec();
        bytes.iter_mut().skip(2).for_each(|byte| *byte = 0);
        expected_field_code(layout, channel, &bytes)
    }),
    takes("the first byte for all", |layout, channel, bytes| {
        let first = bytes.iter().take(1).cycle();
        let bytes: Vec<u8> = first.take(bytes.len()).copied().collect();
        expected_field_code(layout, channel, &bytes)
    }),
    takes("the neighbour's offset", |layout, channel, bytes| {
        coded(layout, channel, bytes, |number, _, depth| {
            let offset = layout[OFFSETS + usize::from((channel + 1) % 3)];
            lowest(number >> (offset % 8), depth)
        })
    }),
    // Which codes.
    takes(
        "narrow codes beyond the ends as the nearer",
        |layout, channel, bytes| {
            coded_as(layout, channel, bytes, |code| {
                within_the_ends(layout[RANGE], layout[DEPTH], code).into()
            })
        },
    ),
    takes(
        "narrow codes beyond the ends refused",
        |layout, channel, bytes| {
            coded_as(layout, channel, bytes, |code| {
                match within_the_ends(layout[RANGE], layout[DEPTH], code) == code {
                    true => code.into(),
                    false => refused(Refusal::CodeTooHigh),
                }
            })
        },
    ),
    takes("a constant code", |layout, channel, bytes| {
        coded_as(layout, channel, bytes, |_| 128)
    }),
    // Refusal 13.
    takes("no bytes accepted", |layout, channel, bytes| {
        accepting(layout, channel, bytes, |given, _| given == 0)
    }),
    takes("four bytes accepted", |layout, channel, bytes| {
        accepting(layout, channel, bytes, |given, _| given == 4)
    }),
    takes(
        "three bytes accepted for each field",
        |layout, channel, bytes| accepting(layout, channel, bytes, |given, _| given == 3),
    ),
    takes("a byte more accepted", |layout, channel, bytes| {
        accepting(layout, channel, bytes, |given, needed| given == needed + 1)
    }),
    takes("a byte fewer accepted", |layout, channel, bytes| {
        accepting(layout, channel, bytes, |given, needed| given + 1 == needed)
    }),
    takes("one byte of three accepted", |layout, channel, bytes| {
        accepting(layout, channel, bytes, |given, needed| {
            [given, needed] == [1, 3]
        })
    }),
    takes(
        "any number from its own accepted",
        |layout, channel, bytes| accepting(layout, channel, bytes, |given, needed| given > needed),
    ),
    takes("more than a point accepted", |layout, channel, bytes| {
        accepting(layout, channel, bytes, |given, _| given == 9)
    }),
    takes(
        "the number of bytes cut to 8 bits",
        |layout, channel, bytes| {
            accepting(layout, channel, bytes, |given, needed| {
                given % 256 == needed
            })
        },
    ),
    takes(
        "the number of bytes cut to 16 bits",
        |layout, channel, bytes| {
            accepting(layout, channel, bytes, |given, needed| {
                given % 65_536 == needed
            })
        },
    ),
    takes(
        "three bytes refused",
        |layout, channel, bytes| match bytes.len() {
            3 => refused(Refusal::Length),
            _ => expected_field_code(layout, channel, bytes),
        },
    ),
    // The order of refusals.
    takes(
        "13 before 9 for a layout",
        |layout, channel, bytes| match expected_field_code(layout, channel, bytes) {
            -9 if channel < 3 && bytes.is_empty() => refused(Refusal::Length),
            answer => answer,
        },
    ),
    takes(
        "13 before 9 for a channel",
        |layout, channel, bytes| match expected_field_code(layout, channel, bytes) {
            -9 if channel > 2 && ![1, 2, 3].contains(&bytes.len()) => refused(Refusal::Length),
            answer => answer,
        },
    ),
    takes(
        "more than three bytes refused first",
        |layout, channel, bytes| match bytes.len() {
            0..=3 => expected_field_code(layout, channel, bytes),
            _ => refused(Refusal::Length),
        },
    ),
    // Refusal 9.
    takes("channel 3 taken for 0", |layout, channel, bytes| {
        expected_field_code(layout, if channel == 3 { 0 } else { channel }, bytes)
    }),
    takes("channels cut to two bits", |layout, channel, bytes| {
        expected_field_code(layout, channel & 3, bytes)
    }),
    takes(
        "13 for a bad channel",
        |layout, channel, bytes| match expected_field_code(layout, channel, bytes) {
            -9 if channel > 2 => refused(Refusal::Length),
            answer => answer,
        },
    ),
    takes("primaries not looked at", |layout, channel, bytes| {
        let mut changed = layout;
        changed[PRIMARIES] = 1;
        expected_field_code(changed, channel, bytes)
    }),
    takes("range 3 refused", |layout, channel, bytes| {
        match layout[RANGE] {
            LEGACY => refused(Refusal::Outside),
            _ => expected_field_code(layout, channel, bytes),
        }
    }),
    takes(
        "overlapping fields taken",
        |layout, channel, bytes| match expected_field_code(layout, channel, bytes) {
            -9 if only_overlaps(layout) => {
                expected_field_code(with_fields_apart(layout), channel, bytes)
            }
            answer => answer,
        },
    ),
    takes("everything refused", |_, _, _| refused(Refusal::Outside)),
];

/// Another code for what is accepted, made from the number of the bytes, the offset and
/// the depth.
fn coded(layout: Layout, channel: u8, bytes: &[u8], code: impl Fn(u32, u32, u32) -> u32) -> i64 {
    coded_as(layout, channel, bytes, |_| {
        let number = bytes
            .iter()
            .rfold(0, |number, &byte| 256 * number + u32::from(byte));
        let offset = layout[OFFSETS + usize::from(channel)];
        code(number, offset.into(), layout[DEPTH].into()).into()
    })
}

/// Another answer for the code of what is accepted.
fn coded_as(layout: Layout, channel: u8, bytes: &[u8], answer: impl Fn(u16) -> i64) -> i64 {
    match expected_field_code(layout, channel, bytes) {
        code @ 0.. => answer(code as u16),
        refusal => refusal,
    }
}

fn lowest(number: u32, bits: u32) -> u32 {
    number % (1 << bits)
}

/// Accepts other numbers of bytes too, by how many are given and how many are needed.
/// What is too much is passed over, and what is missing is zero.
fn accepting(layout: Layout, channel: u8, bytes: &[u8], accepts: fn(usize, usize) -> bool) -> i64 {
    let mut fitting = bytes.to_vec();
    if let Ok(held) = fields::bytes(layout, channel) {
        if accepts(bytes.len(), held.len()) {
            fitting.resize(held.len(), 0);
        }
    }
    expected_field_code(layout, channel, &fitting)
}
