//! Mistakes in which of the elements of two points make a group, made in packing and in
//! encoding, and in which of them are cut.

use crate::lines::{expected_encode_line, expected_pack_line};
use crate::plain::lines::{packed_by, Making, MAKING};

use super::super::encode::encodes;
use super::super::pack::packs;
use super::super::Wrong;
use super::{encoded, given, of_groups};

/// Which of Y', Cb, Cr, Y', Cb, Cr are looked at or stored.
macro_rules! chosen {
    ($($mistake:literal: $making:expr,)*) => {
        pub const WRONG: &[Wrong] = &[$(
            packs(concat!($mistake, ", packing"), |layout, codes, out| {
                packed_by(layout, codes, out, $making)
            }),
            encodes(concat!($mistake, ", encoding"), |layout, values, out| {
                encoded(layout, values, out, $making)
            }),
        )*];
    };
}

chosen! {
    // What is stored.
    "the second point's colour taken": Making {
        stored: |layout| of_groups(layout, &[0, 4, 5, 3]),
        ..MAKING
    },
    "the second point's colour stored last": Making {
        stored: |layout| of_groups(layout, &[0, 1, 2, 3, 4, 5]),
        ..MAKING
    },
    "Cb of the first point and Cr of the second": Making {
        stored: |layout| of_groups(layout, &[0, 1, 5, 3]),
        ..MAKING
    },
    "Cb of the second point and Cr of the first": Making {
        stored: |layout| of_groups(layout, &[0, 4, 2, 3]),
        ..MAKING
    },
    "the second point's brightness not stored": Making {
        stored: |layout| of_groups(layout, &[0, 1, 2]),
        ..MAKING
    },
    "no colour stored": Making {
        stored: |layout| of_groups(layout, &[0, 3]),
        ..MAKING
    },
    "the second point's colour taken and looked at": Making {
        refused: |layout| of_groups(layout, &[0, 4, 5, 3]),
        counted: |layout| of_groups(layout, &[0, 4, 5, 3]),
        stored: |layout| of_groups(layout, &[0, 4, 5, 3]),
        ..MAKING
    },
    // What is refused by 12 or 14.
    "the second point's colour refused": Making {
        refused: |layout| of_groups(layout, &[0, 1, 2, 3, 4, 5]),
        ..MAKING
    },
    "the second point's Cb refused": Making {
        refused: |layout| of_groups(layout, &[0, 1, 2, 3, 4]),
        ..MAKING
    },
    "the second point's Cr refused": Making {
        refused: |layout| of_groups(layout, &[0, 1, 2, 3, 5]),
        ..MAKING
    },
    "the second point's brightness not looked at": Making {
        refused: |layout| of_groups(layout, &[0, 1, 2]),
        ..MAKING
    },
    "the first point's brightness not looked at": Making {
        refused: |layout| of_groups(layout, &[1, 2, 3]),
        ..MAKING
    },
    "the first point's colour not looked at": Making {
        refused: |layout| of_groups(layout, &[0, 3]),
        ..MAKING
    },
    "the first point's Cr not looked at": Making {
        refused: |layout| of_groups(layout, &[0, 1, 3]),
        ..MAKING
    },
    "the second point's colour refused, the first's not": Making {
        refused: |layout| of_groups(layout, &[0, 4, 5, 3]),
        ..MAKING
    },
    "nothing of a group looked at": Making {
        refused: |layout| of_groups(layout, &[]),
        ..MAKING
    },
}

/// Which of them are counted where they are cut.
macro_rules! counted {
    ($($mistake:literal: $codes:expr,)*) => {
        pub const CUTS: &[Wrong] = &[$(
            encodes($mistake, |layout, values, out| {
                let counted = |layout| of_groups(layout, $codes);
                encoded(layout, values, out, Making { counted, ..MAKING })
            }),
        )*];
    };
}

counted! {
    "cuts of the second point's colour counted": &[0, 1, 2, 3, 4, 5],
    "cuts of the second point's Cb counted": &[0, 1, 2, 3, 4],
    "cuts of the second point's Cr counted": &[0, 1, 2, 3, 5],
    "cuts of the second point's colour for the first's": &[0, 4, 5, 3],
    "cuts of the second point not counted": &[0, 1, 2],
    "cuts of brightness alone in groups": &[0, 3],
    "cuts of colour alone in groups": &[1, 2],
    "cuts of a group's colour counted for both points": &[0, 1, 1, 2, 2, 3],
    "cuts of the first point counted twice": &[0, 1, 2, 0, 1, 2],
    "no cuts in groups": &[],
}

/// What the elements of a group are taken for.
macro_rules! taken {
    ($($mistake:literal: $codes:expr, $values:expr,)*) => {
        pub const TAKEN: &[Wrong] = &[$(
            packs(concat!($mistake, ", packing"), |layout, codes, out| {
                expected_pack_line(layout, &given(layout, codes, $codes), out)
            }),
            encodes(concat!($mistake, ", encoding"), |layout, values, out| {
                expected_encode_line(layout, &given(layout, values, $values), out)
            }),
        )*];
    };
}

taken! {
    "the mean of both colours taken":
        |codes| for place in 1..3 { codes[place] = codes[place].midpoint(codes[place + 3]) },
        |values| for place in 1..3 { values[place] = values[place].midpoint(values[place + 3]) },
    "the greater colour taken":
        |codes| for place in 1..3 { codes[place] = codes[place].max(codes[place + 3]) },
        |values| for place in 1..3 { values[place] = values[place].max(values[place + 3]) },
    "the first point's brightness taken for both":
        |codes| codes[3] = codes[0],
        |values| values[3] = values[0],
    "the second point's brightness taken for both":
        |codes| codes[0] = codes[3],
        |values| values[0] = values[3],
    "the second point's colour taken where it is one":
        |codes| if codes[4..].iter().all(|&code| code < 256) { codes.copy_within(4.., 1) },
        |values| if values[4..].iter().all(|value| !value.is_nan()) { values.copy_within(4.., 1) },
}
