//! Mistakes in which layouts there are, made in all four functions on lines.

use crate::layouts::{
    is_grouped, BYTES, DEPTH, LEGACY, MODEL, OFFSETS, OWN, PRIMARIES, RANGE, SAMPLING, SHARED,
};
use crate::library::Layout;
use crate::lines::{
    expected_decode_line, expected_encode_line, expected_pack_line, expected_unpack_line,
};

use super::super::decode::decodes;
use super::super::encode::encodes;
use super::super::pack::packs;
use super::super::unpack::unpacks;
use super::super::Wrong;

/// What a layout is taken for.
macro_rules! taken {
    ($($mistake:literal: |$layout:ident| $change:expr,)*) => {
        pub const WRONG: &[Wrong] = &[$(
            unpacks(concat!($mistake, ", unpacking"), |mut $layout, packed, out| {
                $change;
                expected_unpack_line($layout, packed, out)
            }),
            packs(concat!($mistake, ", packing"), |mut $layout, codes, out| {
                $change;
                expected_pack_line($layout, codes, out)
            }),
            decodes(concat!($mistake, ", decoding"), |mut $layout, packed, out| {
                $change;
                expected_decode_line($layout, packed, out)
            }),
            encodes(concat!($mistake, ", encoding"), |mut $layout, values, out| {
                $change;
                expected_encode_line($layout, values, out)
            }),
        )*];
    };
}

taken! {
    // The sampling.
    "the sampling of points not looked at": |layout| {
        if layout[OFFSETS..SAMPLING] != [0; 3] {
            layout[SAMPLING] = OWN;
        }
    },
    "any sampling of a group's taken for 1": |layout| {
        if layout[OFFSETS..SAMPLING] == [0; 3] {
            layout[SAMPLING] = SHARED;
        }
    },
    "sampling 0 of a group's taken for 1": |layout| {
        if layout[OFFSETS..=SAMPLING] == [0; 4] {
            layout[SAMPLING] = SHARED;
        }
    },
    "sampling 2 taken for 1": |layout| {
        if layout[SAMPLING] == 2 {
            layout[SAMPLING] = SHARED;
        }
    },
    "the sampling cut to its lowest bit": |layout| layout[SAMPLING] &= 1,
    "the sampling cut to 7 bits": |layout| layout[SAMPLING] &= 127,
    // The other numbers of groups.
    "groups of R'G'B'": |layout| {
        if is_grouped(layout) && layout[MODEL] == 1 {
            layout[MODEL] = 2;
        }
    },
    "groups of any model": |layout| {
        if is_grouped(layout) {
            layout[MODEL] = 2;
        }
    },
    "groups of 10 bits": |layout| {
        if is_grouped(layout) && layout[DEPTH] == 10 {
            layout[DEPTH] = 8;
        }
    },
    "groups of any depth": |layout| {
        if is_grouped(layout) {
            layout[DEPTH] = 8;
        }
    },
    "groups of 3 bytes": |layout| {
        if is_grouped(layout) && layout[BYTES] == 3 {
            layout[BYTES] = 4;
        }
    },
    "groups of any size": |layout| {
        if is_grouped(layout) {
            layout[BYTES] = 4;
        }
    },
    "offsets of groups not looked at": |layout| {
        if is_grouped(layout) {
            layout[OFFSETS..SAMPLING].fill(0);
        }
    },
    "the last offset of groups not looked at": |layout| {
        if is_grouped(layout) {
            layout[OFFSETS + 2] = 0;
        }
    },
    "primaries of groups not looked at": |layout| {
        if is_grouped(layout) {
            layout[PRIMARIES] = 1;
        }
    },
    "range 4 of groups taken for 3": |layout| {
        if is_grouped(layout) && layout[RANGE] == 4 {
            layout[RANGE] = LEGACY;
        }
    },
    "groups in range 3 refused": |layout| {
        if is_grouped(layout) && layout[RANGE] == LEGACY {
            layout[RANGE] = 0;
        }
    },
    "groups in full range refused": |layout| {
        if is_grouped(layout) && layout[RANGE] == 2 {
            layout[RANGE] = 0;
        }
    },
    "groups in narrow range refused": |layout| {
        if is_grouped(layout) && layout[RANGE] == 1 {
            layout[RANGE] = 0;
        }
    },
    "groups of BT.2020 refused": |layout| {
        if is_grouped(layout) && layout[PRIMARIES] == 4 {
            layout[PRIMARIES] = 0;
        }
    },
}

/// Ranges that only floats tell apart.
pub const RANGES: &[Wrong] = &[
    decodes("groups decoded in full range", |layout, packed, out| {
        expected_decode_line(in_full_range(layout, 1), packed, out)
    }),
    encodes("groups encoded in full range", |layout, values, out| {
        expected_encode_line(in_full_range(layout, 1), values, out)
    }),
    decodes(
        "early groups decoded in full range",
        |layout, packed, out| expected_decode_line(in_full_range(layout, LEGACY), packed, out),
    ),
    encodes(
        "early groups encoded in full range",
        |layout, values, out| expected_encode_line(in_full_range(layout, LEGACY), values, out),
    ),
];

/// Groups of one range in full range.
fn in_full_range(mut layout: Layout, range: u8) -> Layout {
    if is_grouped(layout) && layout[RANGE] == range {
        layout[RANGE] = 2;
    }
    layout
}
