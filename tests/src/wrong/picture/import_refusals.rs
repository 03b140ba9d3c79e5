//! Mistakes in what an import refuses, and in which order.

use crate::picture::expected_import;
use crate::plain::picture::{
    begun, imported, load, Given, ImportRow, Importing, CODES, HEADER, IMPORTING,
    ITEM_AND_PRIMARIES, POINTS, ROOM_FOR_A_CARD, ROOM_FOR_POINTS,
};

use super::super::Wrong;
use super::imports;

macro_rules! by_rows {
    ($($mistake:literal: [$($row:expr),*],)*) => {
        pub const ROWS: &[Wrong] = &[$(
            imports($mistake, |ppm, item, primaries, made| {
                const WRONG: &[ImportRow] = &[$($row),*];
                imported(ppm, item, primaries, made, &Importing { rows: WRONG, ..IMPORTING })
            }),
        )*];
    };
}

/// Short names of the right rows.
const BOTH: ImportRow = ITEM_AND_PRIMARIES;
const CARD: ImportRow = ROOM_FOR_A_CARD;
const ROOM: ImportRow = ROOM_FOR_POINTS;

const PRIMARIES: ImportRow = (9, |given| ![1, 2, 3, 4].contains(&given.primaries));
const ITEM: ImportRow = (9, |given| given.item == 0);
const ITEM_AND_HIGH: ImportRow = (9, |given| given.item == 0 || given.primaries > 4);
const ITEM_AND_0: ImportRow = (9, |given| given.item == 0 || given.primaries == 0);
const TO_5: ImportRow = (9, |given| {
    given.item == 0 || ![1, 2, 3, 4, 5].contains(&given.primaries)
});
const BY_BITS: ImportRow = (9, |given| {
    given.item == 0 || ![0, 1, 2, 3].contains(&(given.primaries & 0xfb))
});
const ITEM_LOW: ImportRow = (9, |given| given.item as u32 == 0 || PRIMARIES.1(given));
const ABOVE_14: ImportRow = (14, CODES.1);
const ABOVE_13: ImportRow = (13, CODES.1);
const HEADER_13: ImportRow = (13, HEADER.1);
const HEADER_9: ImportRow = (9, HEADER.1);
const HEADER_17: ImportRow = (17, HEADER.1);
const POINTS_18: ImportRow = (18, POINTS.1);
const CARD_1: ImportRow = (1, ROOM_FOR_A_CARD.1);
const NEEDS_A_CARD: ImportRow = (13, |given| given.card != 32);

by_rows! {
    // Items and primaries.
    "item 0 taken": [PRIMARIES, HEADER, POINTS, CARD, ROOM, CODES],
    "any primaries taken": [ITEM, HEADER, POINTS, CARD, ROOM, CODES],
    "primaries 0 taken": [ITEM_AND_HIGH, HEADER, POINTS, CARD, ROOM, CODES],
    "primaries above 4 taken": [ITEM_AND_0, HEADER, POINTS, CARD, ROOM, CODES],
    "primaries 5 taken": [TO_5, HEADER, POINTS, CARD, ROOM, CODES],
    "primaries 0 and 5 to 7 taken": [BY_BITS, HEADER, POINTS, CARD, ROOM, CODES],
    "items above 32 bits refused": [ITEM_LOW, HEADER, POINTS, CARD, ROOM, CODES],
    // The order.
    "9 after 18 for a header": [HEADER, BOTH, POINTS, CARD, ROOM, CODES],
    "9 after 13": [HEADER, POINTS, CARD, ROOM, BOTH, CODES],
    "9 last": [HEADER, POINTS, CARD, ROOM, CODES, BOTH],
    "9 for primaries after 18": [ITEM, HEADER, PRIMARIES, POINTS, CARD, ROOM, CODES],
    "9 for an item after 18": [PRIMARIES, HEADER, ITEM, POINTS, CARD, ROOM, CODES],
    "13 for a card before 18": [BOTH, NEEDS_A_CARD, HEADER, POINTS, ROOM, CODES],
    "13 for a card before 9": [NEEDS_A_CARD, BOTH, HEADER, POINTS, ROOM, CODES],
    "18 for a code before 13": [BOTH, HEADER, CODES, POINTS, CARD, ROOM],
    "18 for a code before 13 for rooms": [BOTH, HEADER, POINTS, CODES, CARD, ROOM],
    "18 for a code before 13 for a card": [BOTH, HEADER, POINTS, ROOM, CODES, CARD],
    "18 for a code before 13 for points": [BOTH, HEADER, POINTS, CARD, CODES, ROOM],
    "18 for a code before 9": [CODES, BOTH, HEADER, POINTS, CARD, ROOM],
    // Other numbers.
    "14 for a code above the largest": [BOTH, HEADER, POINTS, CARD, ROOM, ABOVE_14],
    "13 for a code above the largest": [BOTH, HEADER, POINTS, CARD, ROOM, ABOVE_13],
    "13 for a header": [BOTH, HEADER_13, POINTS, CARD, ROOM, CODES],
    "9 for a header": [BOTH, HEADER_9, POINTS, CARD, ROOM, CODES],
    "17 for a header": [BOTH, HEADER_17, POINTS, CARD, ROOM, CODES],
    "18 for a wrong number of bytes": [BOTH, HEADER, POINTS_18, CARD, ROOM, CODES],
    "1 for the room of a card": [BOTH, HEADER, POINTS, CARD_1, ROOM, CODES],
}

/// Codes above the largest that are found otherwise, of the points' codes and the largest.
macro_rules! finding {
    ($($mistake:literal: $found:expr,)*) => {
        pub const CODES_ABOVE: &[Wrong] = &[$(
            imports($mistake, |ppm, item, primaries, made| {
                const ABOVE: ImportRow = (18, |given| {
                    let found: fn(&[u16], u16) -> bool = $found;
                    given.size.is_some_and(|size| {
                        size.depth > 8 && found(&codes(given), size.largest())
                    })
                });
                const WRONG: &[ImportRow] = &[BOTH, HEADER, POINTS, CARD, ROOM, ABOVE];
                let load = |bytes: &[u8]| load(bytes) & 4095;
                imported(ppm, item, primaries, made, &Importing { rows: WRONG, load, ..IMPORTING })
            }),
        )*];
    };
}

finding! {
    "codes above the largest taken": |_, _| false,
    "codes above the largest but in the first point": |codes, most| {
        codes[3..].iter().any(|&code| code > most)
    },
    "codes above the largest but in the last point": |codes, most| {
        codes[..codes.len() - 3].iter().any(|&code| code > most)
    },
    "codes above the largest but in the last place": |codes, most| {
        codes[..codes.len() - 1].iter().any(|&code| code > most)
    },
    "codes above the largest in the first place alone": |codes, most| codes[0] > most,
    "codes above the largest in channel 0 alone": |codes, most| {
        codes.iter().step_by(3).any(|&code| code > most)
    },
    "codes above the largest in channels 0 and 1 alone": |codes, most| {
        codes.chunks(3).any(|point| point[0] > most || point[1] > most)
    },
    "codes above the largest after the last whole 64 taken": |codes, most| {
        let whole = codes.len() / 192 * 192;
        codes[..if whole == 0 { codes.len() } else { whole }].iter().any(|&code| code > most)
    },
    "codes above 4,095 alone": |codes, _| codes.iter().any(|&code| code > 4095),
    "codes above 1,023 at every depth": |codes, _| codes.iter().any(|&code| code > 1023),
    "the largest code refused": |codes, most| codes.iter().any(|&code| code >= most),
    "the code after the largest taken": |codes, most| codes.iter().any(|&code| code > most + 1),
    "codes above the largest by the bit after it": |codes, most| {
        codes.iter().any(|&code| code & (most + 1) != 0)
    },
}

fn codes(given: &Given) -> Vec<u16> {
    given.points.chunks(2).map(load).collect()
}

/// What is done of a header that is cut short, or of memory.
pub const WRONG: &[Wrong] = &[
    imports(
        "13 for a header that is cut short",
        |ppm, item, primaries, made| match expected_import(ppm, item, primaries, made) {
            -18 if begun(&[ppm.elements(), b"\n"].concat()).is_some() => -13,
            answer => answer,
        },
    ),
    imports(
        "13 for an empty file",
        |ppm, item, primaries, made| match expected_import(ppm, item, primaries, made) {
            -18 if ppm.length() == 0 => -13,
            answer => answer,
        },
    ),
    imports(
        "18 for a picture without points",
        |ppm, item, primaries, made| match expected_import(ppm, item, primaries, made) {
            -13 if begun(ppm.elements()).is_some_and(|(_, points)| points.is_empty()) => -18,
            answer => answer,
        },
    ),
    imports(
        "nothing imported",
        |ppm, item, primaries, made| match expected_import(ppm, item, primaries, &mut made.clone())
        {
            1.. => -18,
            refusal => refusal,
        },
    ),
];
