//! Mistakes in the span that a rounded number is compared with to tell whether it is cut.
//! The codes are right.

use reference::quantization::{Kind, Range, Scale};

use crate::plain::color::{Pieces, PIECES};
use crate::plain::lines::{encoded, encoded_point};
use crate::plain::quantization::{all_codes, cut, ends, outside, right_number};

use super::converts::{by, converts};
use super::encode::{encodes, encodes_points};
use super::quantization::quantizes;
use super::Wrong;

/// Each of the mistakes, made in quantizing, in encoding a line and a point, and in
/// each direction of converting.
macro_rules! mistaken {
    ($($mistake:literal: $cut:expr,)*) => {
        pub const QUANTIZING: &[Wrong] = &[$(
            quantizes($mistake, |setting, value, cuts| {
                cut(setting, value, cuts, right_number, ends, $cut)
            }),
        )*];

        pub const ENCODING: &[Wrong] = &[$(
            encodes(concat!($mistake, ", encoding"), |layout, values, out| {
                encoded(layout, values, out, |setting, value, cuts| {
                    cut(setting, value, cuts, right_number, ends, $cut)
                })
            }),
            encodes_points(concat!($mistake, ", a point"), |layout, values, out| {
                encoded_point(layout, values, out, |setting, value, cuts| {
                    cut(setting, value, cuts, right_number, ends, $cut)
                })
            }),
        )*];

        pub const CONVERTING: &[Wrong] = [$(
            converts($mistake, by!(Pieces { cut: $cut, ..PIECES })),
        )*]
        .as_flattened();
    };
}

mistaken! {
    "nothing is cut": |_, _, _| false,
    "everything is cut": |_, _, _| true,
    // Which end.
    "an end counted as cut": |scale, number, [low, high]| {
        outside(scale, number, [low + 1, high - 1])
    },
    "the lower end counted as cut": |scale, number, [low, high]| {
        outside(scale, number, [low + 1, high])
    },
    "the upper end counted as cut": |scale, number, [low, high]| {
        outside(scale, number, [low, high - 1])
    },
    "one code beyond not counted": |scale, number, [low, high]| {
        outside(scale, number, [low - 1, high + 1])
    },
    "what lies below not counted": |scale, number, [_, high]| {
        outside(scale, number, [i64::MIN, high])
    },
    "what lies above not counted": |scale, number, [low, _]| {
        outside(scale, number, [low, i64::MAX])
    },
    // Which range, depth and kind.
    "cut only beyond all codes in narrow range": |scale, number, ends| match scale.range {
        Range::Narrow => outside(scale, number, all_codes(scale)),
        Range::Full | Range::LegacyFull => outside(scale, number, ends),
    },
    "4093 to 4095 not counted": |scale, number, ends| match scale.range {
        Range::LegacyFull => outside(scale, number, all_codes(scale)),
        Range::Narrow | Range::Full => outside(scale, number, ends),
    },
    "4093 to 4095 counted in full range": |scale, number, ends| match scale.range {
        Range::Full => outside(scale, number, [0, ends[1].min(4092)]),
        Range::Narrow | Range::LegacyFull => outside(scale, number, ends),
    },
    "cut beyond narrow range's nominal one": |scale, number, [low, high]| {
        match (scale.range, scale.kind) {
            (Range::Narrow, Kind::Brightness) => outside(scale, number, [16 * low, 235 * low]),
            (Range::Narrow, Kind::Difference) => outside(scale, number, [16 * low, 240 * low]),
            _ => outside(scale, number, [low, high]),
        }
    },
    "the span of 8 bits at every depth": |scale, number, _| {
        outside(scale, number, ends(Scale { depth: 8, ..scale }))
    },
    "full range's span for narrow and older": |scale, number, _| {
        outside(scale, number, ends(Scale { range: Range::Full, ..scale }))
    },
    "brightness not counted": |scale, number, ends| {
        scale.kind == Kind::Difference && outside(scale, number, ends)
    },
}
