//! Mistakes in the ends of codes: in what each entry that makes codes clamps to, and
//! in what becomes of narrow codes beyond the ends where codes are only read.

use reference::lines;
use reference::quantization::{Kind, Range, Scale};
use reference::refusal::Refusal;

use crate::guarded::{Element, Guarded};
use crate::layouts::elements_in;
use crate::library::{Layout, Setting, Slot};
use crate::plain::color::{Pieces, PIECES};
use crate::plain::lines::{encoded, encoded_point};
use crate::plain::quantization::{
    all_codes, clamped, ends, half_up, line, on_line, returned, right_number,
};
use crate::quantization::{refused, scale};

use super::converts::{by, converts};
use super::encode::{encodes, encodes_points};
use super::quantization::quantizes;
use super::{Wrong, REFERENCE};

/// Each of the mistakes, made in quantizing, in encoding a line and a point, and in
/// each direction of converting.
macro_rules! mistaken {
    ($($mistake:literal: $ends:expr,)*) => {
        pub const QUANTIZING: &[Wrong] = &[$(
            quantizes($mistake, |setting, value, cuts| {
                clamped(setting, value, cuts, right_number, $ends)
            }),
        )*];

        pub const ENCODING: &[Wrong] = &[$(
            encodes(concat!($mistake, ", encoding"), |layout, values, out| {
                encoded(layout, values, out, |setting, value, cuts| {
                    clamped(setting, value, cuts, right_number, $ends)
                })
            }),
            encodes_points(concat!($mistake, ", a point"), |layout, values, out| {
                encoded_point(layout, values, out, |setting, value, cuts| {
                    clamped(setting, value, cuts, right_number, $ends)
                })
            }),
        )*];

        pub const CONVERTING: &[Wrong] = [$(
            converts($mistake, by!(Pieces { ends: $ends, ..PIECES })),
        )*]
        .as_flattened();
    };
}

mistaken! {
    // Narrow range.
    "narrow clamped to all codes": |scale| narrow(scale, all_codes(scale)),
    "narrow clamped at 8 bits alone": |scale| match scale.depth {
        8 => ends(scale),
        _ => narrow(scale, all_codes(scale)),
    },
    "narrow clamped to 1 and 254 at every depth": |scale| narrow(scale, [1, 254]),
    "narrow: one code kept at each end at every depth": |scale| {
        let [bottom, top] = all_codes(scale);
        narrow(scale, [bottom + 1, top - 1])
    },
    "narrow: 0 for s": |scale| narrow(scale, [0, ends(scale)[1]]),
    "narrow: s - 1 for s": |scale| narrow(scale, [s(scale) - 1, ends(scale)[1]]),
    "narrow: 16s for s": |scale| narrow(scale, [16 * s(scale), ends(scale)[1]]),
    "narrow: 255s for 255s - 1": |scale| narrow(scale, [s(scale), 255 * s(scale)]),
    "narrow: 254s for 255s - 1": |scale| narrow(scale, [s(scale), 254 * s(scale)]),
    "narrow: 240s for 255s - 1": |scale| narrow(scale, [s(scale), 240 * s(scale)]),
    "narrow: 235s for 255s - 1": |scale| narrow(scale, [s(scale), 235 * s(scale)]),
    "narrow: 2^n - 1 for 255s - 1": |scale| narrow(scale, [s(scale), all_codes(scale)[1]]),
    "narrow clamped to its nominal range": |scale| match scale.kind {
        Kind::Brightness => narrow(scale, [16 * s(scale), 235 * s(scale)]),
        Kind::Difference => narrow(scale, [16 * s(scale), 240 * s(scale)]),
    },
    "narrow differences alone clamped": |scale| match scale.kind {
        Kind::Brightness => narrow(scale, all_codes(scale)),
        Kind::Difference => ends(scale),
    },
    "narrow clamped to 4092": |scale| match scale.depth {
        12 => narrow(scale, [s(scale), 4092]),
        _ => ends(scale),
    },
    // The other ranges.
    "full range clamped as narrow is": |scale| match scale.range {
        Range::Full => as_narrow(scale),
        Range::Narrow | Range::LegacyFull => ends(scale),
    },
    "the older full range clamped as narrow is": |scale| older(scale, as_narrow(scale)),
    "full range clamped to 4092": |scale| match (scale.range, scale.depth) {
        (Range::Full, 12) => [0, 4092],
        _ => ends(scale),
    },
    "the older full range clamped to 4095": |scale| older(scale, all_codes(scale)),
    "every older top three under 2^n - 1": |scale| {
        older(scale, [0, all_codes(scale)[1] - 3])
    },
}

/// The given ends in narrow range, the right ones in the others.
fn narrow(scale: Scale, wrong: [i64; 2]) -> [i64; 2] {
    match scale.range {
        Range::Narrow => wrong,
        Range::Full | Range::LegacyFull => ends(scale),
    }
}

/// The given ends in the older full range, the right ones in the others.
fn older(scale: Scale, wrong: [i64; 2]) -> [i64; 2] {
    match scale.range {
        Range::LegacyFull => wrong,
        Range::Narrow | Range::Full => ends(scale),
    }
}

/// The ends of narrow range at the same depth.
fn as_narrow(scale: Scale) -> [i64; 2] {
    ends(Scale {
        range: Range::Narrow,
        ..scale
    })
}

fn s(scale: Scale) -> i64 {
    1 << (scale.depth - 8)
}

/// Narrow brightness to its ends, narrow differences to those of all codes. (Made
/// towards R'G'B', which has no differences, it is no mistake.)
pub fn brightness_alone(scale: Scale) -> [i64; 2] {
    match scale.kind {
        Kind::Brightness => ends(scale),
        Kind::Difference => narrow(scale, all_codes(scale)),
    }
}

/// Narrow infinities alone to the ends of all codes.
pub fn infinities_to_all_codes(setting: Setting, value: f32, cuts: &mut Slot) -> i64 {
    if value.is_infinite() {
        clamped(setting, value, cuts, right_number, |scale| {
            narrow(scale, all_codes(scale))
        })
    } else {
        (REFERENCE.quantize)(setting, value, cuts)
    }
}

/// Clamped half a code beyond both ends and then rounded, which goes up past the top.
/// To clamp at the ends themselves and then to round would be right: whole numbers are
/// rounded to themselves. Its cuts are right.
pub fn rounded_after_the_clamp(setting: Setting, value: f32, cuts: &mut Slot) -> i64 {
    let rule = |scale, value| {
        let [least, greatest] = ends(scale).map(|end| end as f64);
        let number = on_line(line(scale), value);
        half_up(number.clamp(least - 0.5, greatest + 0.5))
    };
    (REFERENCE.quantize)(setting, value, cuts);
    clamped(setting, value, &mut cuts.clone(), rule, |scale| {
        narrow(scale, all_codes(scale))
    })
}

/// A code of a range and a depth, but a narrow one beyond the ends as the nearer end.
pub fn within_the_ends(range: u8, depth: u8, code: u16) -> u16 {
    match scale([1, range, depth, 0]) {
        Ok(scale) if scale.range == Range::Narrow && code >> depth == 0 => returned(scale, code),
        _ => code,
    }
}

pub fn codes_within_the_ends(layout: Layout, codes: &[u16]) -> Vec<u16> {
    let [_, _, range, depth, ..] = layout;
    codes
        .iter()
        .map(|&code| within_the_ends(range, depth, code))
        .collect()
}

/// The packed points, if any code of theirs lies beyond, with all within the ends.
pub fn line_within_the_ends(layout: Layout, packed: &[u8]) -> Vec<u8> {
    let mut within = packed.to_vec();
    let mut codes = vec![0; elements_in(layout, packed.len())];
    if lines::unpack_line(layout, packed, &mut codes).is_ok() {
        let nearer = codes_within_the_ends(layout, &codes);
        if nearer != codes {
            // The layout and the lengths were good for unpacking.
            let _ = lines::pack_line(layout, &nearer, &mut within);
        }
    }
    within
}

/// Makes a call on packed points, but refuses by 14 what it would accept where one of
/// their codes lies beyond.
pub fn refusing_points<T: Element>(
    layout: Layout,
    packed: &[u8],
    out: &mut Guarded<T>,
    call: fn(Layout, &[u8], &mut Guarded<T>) -> i64,
) -> i64 {
    let beyond = line_within_the_ends(layout, packed) != packed;
    refusing(beyond, out, |out| call(layout, packed, out))
}

/// Makes a call, but refuses by 14 what it would accept where a code lies beyond.
pub fn refusing<O: Clone>(beyond: bool, out: &mut O, call: impl Fn(&mut O) -> i64) -> i64 {
    match call(&mut out.clone()) {
        0.. if beyond => refused(Refusal::CodeTooHigh),
        _ => call(out),
    }
}
