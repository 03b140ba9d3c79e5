//! Mistakes in storing the number of cuts: it is written exactly where a call is accepted,
//! over what stood there.

use crate::clamped::Clamped;
use crate::color::expected_convert;
use crate::library::{Slot, CUTS};
use crate::lines::{expected_encode_line, expected_encode_point};
use crate::quantization::expected_quantize;

use super::converts::converts;
use super::encode::{encodes, encodes_points};
use super::quantization::quantizes;
use super::Wrong;

/// What becomes of the slot after a call: what it held before, and the answer.
type Store = fn(&mut Slot, Slot, i64);

/// Each of the mistakes, made in quantizing, in encoding a line and a point, and in each
/// direction of converting.
macro_rules! mistaken {
    ($($mistake:literal: $store:expr,)*) => {
        pub const QUANTIZING: &[Wrong] = &[$(
            quantizes($mistake, |setting, value, cuts| {
                let before = *cuts;
                let answer = expected_quantize(setting, value.to_bits(), cuts);
                let store: Store = $store;
                store(cuts, before, answer);
                answer
            }),
        )*];

        pub const ENCODING: &[Wrong] = &[$(
            encodes(concat!($mistake, ", encoding"), |layout, values, out| {
                stored(out, $store, |out| expected_encode_line(layout, values, out))
            }),
            encodes_points(concat!($mistake, ", a point"), |layout, values, out| {
                stored(out, $store, |out| expected_encode_point(layout, values, out))
            }),
        )*];

        pub const CONVERTING: &[Wrong] = [$(
            converts($mistake, |direction, conversion, codes, out| {
                stored(out, $store, |out| expected_convert(direction, conversion, codes, out))
            }),
        )*]
        .as_flattened();
    };
}

mistaken! {
    // Where it is accepted.
    "cuts never stored": |cuts, before, _| *cuts = before,
    "cuts not stored where there are none": |cuts, before, _| {
        if cuts[CUTS] == 0 {
            *cuts = before;
        }
    },
    "cuts added to what stood there": |cuts, before, answer| {
        if answer >= 0 {
            cuts[CUTS] = cuts[CUTS].wrapping_add(before[CUTS]);
        }
    },
    "a byte of the cuts stored": |cuts, before, answer| {
        if answer >= 0 {
            cuts[CUTS] = before[CUTS] & !0xff | cuts[CUTS] & 0xff;
        }
    },
    "two bytes of the cuts stored": |cuts, before, answer| {
        if answer >= 0 {
            cuts[CUTS] = before[CUTS] & !0xffff | cuts[CUTS] & 0xffff;
        }
    },
    "eight bytes stored for the cuts": |cuts, _, answer| {
        if answer >= 0 {
            cuts[CUTS + 1] = 0;
        }
    },
    "the answer stored for the cuts": |cuts, _, answer| {
        if answer >= 0 {
            cuts[CUTS] = answer as u32;
        }
    },
    // Where it is refused.
    "cuts cleared on a refusal": |cuts, _, answer| {
        if answer < 0 {
            cuts[CUTS] = 0;
        }
    },
    "cuts cleared on refusal 9": |cuts, _, answer| {
        if answer == -9 {
            cuts[CUTS] = 0;
        }
    },
    "cuts cleared where an element is refused": |cuts, _, answer| {
        if let -12 | -14 = answer {
            cuts[CUTS] = 0;
        }
    },
}

/// Those that only a line can make, and a point where it is one.
pub const ENCODING_A_LINE: &[Wrong] = &[
    encodes(
        "cuts cleared on refusal 13, encoding",
        |layout, values, out| stored(out, on_13, |out| expected_encode_line(layout, values, out)),
    ),
    encodes_points(
        "cuts cleared on refusal 13, a point",
        |layout, values, out| stored(out, on_13, |out| expected_encode_point(layout, values, out)),
    ),
    encodes(
        "cuts answered and points stored, encoding",
        |layout, values, out| {
            let answer = expected_encode_line(layout, values, out);
            exchanged(&mut out.cuts, answer)
        },
    ),
    encodes_points(
        "cuts answered and points stored, a point",
        |layout, values, out| {
            let answer = expected_encode_point(layout, values, out);
            exchanged(&mut out.cuts, answer)
        },
    ),
];

pub const CONVERTING_A_LINE: &[Wrong] = [
    converts(
        "cuts cleared on refusal 13",
        |direction, conversion, codes, out| {
            stored(out, on_13, |out| {
                expected_convert(direction, conversion, codes, out)
            })
        },
    ),
    converts(
        "cuts answered and points stored",
        |direction, conversion, codes, out| {
            let answer = expected_convert(direction, conversion, codes, out);
            exchanged(&mut out.cuts, answer)
        },
    ),
]
.as_flattened();

fn on_13(cuts: &mut Slot, _: Slot, answer: i64) {
    if answer == -13 {
        cuts[CUTS] = 0;
    }
}

/// The cuts as the answer, and the answer as the cuts.
fn exchanged(cuts: &mut Slot, answer: i64) -> i64 {
    match u32::try_from(answer) {
        Ok(points) => std::mem::replace(&mut cuts[CUTS], points).into(),
        Err(_) => answer,
    }
}

/// Makes a call, and does with its cuts what the mistake does.
fn stored<T>(out: &mut Clamped<T>, store: Store, call: impl FnOnce(&mut Clamped<T>) -> i64) -> i64 {
    let before = out.cuts;
    let answer = call(out);
    store(&mut out.cuts, before, answer);
    answer
}
