//! Mistakes in which cards are exported, in which order refusals are given, and in what is told
//! of a file.

use crate::card::{ACCESS, LEAST, WRITTEN};
use crate::guarded::Guarded;
use crate::picture::{expected_export, expected_export_len};
use crate::plain::card::{shown, Asked};
use crate::plain::picture::{
    export_told, exported, ExportRow, Exporting, EXPORTING, LEGACY_RANGE, NOT_OPEN, OUT, PACKED,
};

use super::super::Wrong;
use super::{exports, tells_file};

/// Both functions with other pieces.
macro_rules! in_pieces {
    ($name:ident: $($mistake:literal: $piece:ident: $wrong:expr,)*) => {
        pub const $name: &[Wrong] = &[$(
            exports(concat!($mistake, ", exporting"), |card, edition, packed, out| {
                let pieces = Exporting { $piece: $wrong, ..EXPORTING };
                exported(card, edition, packed, out, &pieces)
            }),
            tells_file(concat!($mistake, ", the file's length"), |card, edition| {
                export_told(card, edition, &Exporting { $piece: $wrong, ..EXPORTING })
            }),
        )*];
    };
}

const OF_CLOSED: ExportRow = (17, |shot| shot.facts.access == 0);
const OF_COMMUNITY: ExportRow = (17, |shot| shot.facts.access == 1);
const BY_THE_BYTE: ExportRow = (17, |shot| shot.card[ACCESS] != 2);
const OF_EARLY_CARDS: ExportRow = (17, |shot| shot.facts.layout[2] == 3);
const OF_FULL_RANGE: ExportRow = (9, |shot| shot.facts.layout[2] != 1);
const OF_YCBCR: ExportRow = (9, |shot| shot.facts.layout[0] != 1);
const OF_GROUPS: ExportRow = (9, |shot| shot.facts.layout[8] == 1);

in_pieces! { WRONG:
    "a community card is exported": rows: &[LEGACY_RANGE, OF_CLOSED, PACKED, OUT],
    "a closed card is exported": rows: &[LEGACY_RANGE, OF_COMMUNITY, PACKED, OUT],
    "every card is exported": rows: &[LEGACY_RANGE, PACKED, OUT],
    "the access byte for the access shown": rows: &[LEGACY_RANGE, BY_THE_BYTE, PACKED, OUT],
    "range 3 is exported": rows: &[NOT_OPEN, PACKED, OUT],
    "17 for range 3": rows: &[OF_EARLY_CARDS, NOT_OPEN, PACKED, OUT],
    "17 before 9 for range 3": rows: &[NOT_OPEN, LEGACY_RANGE, PACKED, OUT],
    "9 for full range": rows: &[OF_FULL_RANGE, NOT_OPEN, PACKED, OUT],
    "9 for Y'CbCr": rows: &[OF_YCBCR, LEGACY_RANGE, NOT_OPEN, PACKED, OUT],
    "9 for groups": rows: &[LEGACY_RANGE, OF_GROUPS, NOT_OPEN, PACKED, OUT],
    "an access above 2 is open": shown: |asked| match asked.edition {
        1 => 0,
        _ => asked.card[ACCESS].min(2),
    },
    "edition 1 shows access": shown: |asked| match asked.card[ACCESS] {
        access @ 1..=2 => access,
        _ => 0,
    },
    "cards written later are closed": shown: |asked| {
        if asked.card[WRITTEN] > asked.edition { 0 } else { shown(asked) }
    },
    "cards from 3 on are closed": shown: |asked| {
        if asked.card[WRITTEN] > 2 { 0 } else { shown(asked) }
    },
    "all is open at 4": shown: |asked| if asked.edition == 4 { 2 } else { shown(asked) },
}

/// Both functions with another answer than the right one.
macro_rules! answering {
    ($($mistake:literal: $answer:expr,)*) => {
        pub const ANSWERS: &[Wrong] = &[$(
            exports(concat!($mistake, ", exporting"), |card, edition, packed, out| {
                let asked = Asked::new(card.elements(), edition);
                let answer: fn(i64, &Asked) -> i64 = $answer;
                let right = expected_export(card, edition, packed, &mut out.clone());
                match answer(right, &asked) {
                    same if same == right => expected_export(card, edition, packed, out),
                    other => other,
                }
            }),
            tells_file(concat!($mistake, ", the file's length"), |card, edition| {
                let asked = Asked::new(card.elements(), edition);
                let answer: fn(i64, &Asked) -> i64 = $answer;
                answer(expected_export_len(card, edition), &asked)
            }),
        )*];
    };
}

answering! {
    // Another number.
    "10 for 17": |answer, _| if answer == -17 { -10 } else { answer },
    "11 for 17": |answer, _| if answer == -17 { -11 } else { answer },
    "9 for 17": |answer, _| if answer == -17 { -9 } else { answer },
    "13 for 17": |answer, _| if answer == -17 { -13 } else { answer },
    "17 for 10": |answer, _| if answer == -10 { -17 } else { answer },
    "17 for 16": |answer, _| if answer == -16 { -17 } else { answer },
    "9 for 10": |answer, _| if answer == -10 { -9 } else { answer },
    "no refusal but 9": |answer, _| if answer < 0 { -9 } else { answer },
    // The order: a reading's refusals come first.
    "17 before 1": |answer, asked| match answer {
        -1 if asked.card[ACCESS] != 2 => -17,
        _ => answer,
    },
    "17 before 7": |answer, asked| match answer {
        -7 if asked.card[ACCESS] != 2 => -17,
        _ => answer,
    },
    "17 before 8": |answer, asked| match answer {
        -8 if asked.card[ACCESS] != 2 => -17,
        _ => answer,
    },
    "17 before a reading's 9": |answer, asked| match answer {
        -9 if asked.card[4] != 3 && asked.card[ACCESS] != 2 => -17,
        _ => answer,
    },
    "17 before 16": |answer, asked| match answer {
        -16 if asked.card[ACCESS] != 2 => -17,
        _ => answer,
    },
    "17 before 9 for bytes 24 to 31": |answer, asked| match answer {
        -9 if asked.card[4] != 3 && asked.card[25..] != [0; 7] && asked.card[ACCESS] != 2 => -17,
        _ => answer,
    },
    "9 for range 3 before 7": |answer, asked| match answer {
        -7 if asked.card[4] == 3 => -9,
        _ => answer,
    },
    "9 for range 3 before 8": |answer, asked| match answer {
        -8 if asked.card[4] == 3 => -9,
        _ => answer,
    },
    "9 for range 3 before 16": |answer, asked| match answer {
        -16 if asked.card[4] == 3 => -9,
        _ => answer,
    },
    "9 for range 3 before 10": |answer, asked| match answer {
        -10 if asked.card[4] == 3 => -9,
        _ => answer,
    },
    "7 before 1, of pictures": |answer, asked| match answer {
        -1 if ![1, 2, 3, 4].contains(&asked.edition) => -7,
        _ => answer,
    },
    "8 before 9 for a byte 0 of 0": |answer, asked| match answer {
        -9 if asked.card[LEAST] == 0 => -8,
        _ => answer,
    },
}

/// Exporting with lengths that compete, or at another edition.
pub const LENGTHS: &[Wrong] = &[
    exports("13 before 17", |card, edition, packed, out| {
        rows(
            card,
            edition,
            packed,
            out,
            &[LEGACY_RANGE, PACKED, OUT, NOT_OPEN],
        )
    }),
    exports("13 for points before 17", |card, edition, packed, out| {
        rows(
            card,
            edition,
            packed,
            out,
            &[LEGACY_RANGE, PACKED, NOT_OPEN, OUT],
        )
    }),
    exports("13 for a file before 17", |card, edition, packed, out| {
        rows(
            card,
            edition,
            packed,
            out,
            &[LEGACY_RANGE, OUT, NOT_OPEN, PACKED],
        )
    }),
    exports("13 before 9 for range 3", |card, edition, packed, out| {
        rows(
            card,
            edition,
            packed,
            out,
            &[PACKED, OUT, LEGACY_RANGE, NOT_OPEN],
        )
    }),
    exports("13 before all", |card, edition, packed, out| {
        let answer = expected_export(card, edition, packed, &mut out.clone());
        match answer {
            ..0 if packed.length() == 0 => -13,
            _ => expected_export(card, edition, packed, out),
        }
    }),
    exports(
        "read at the newest edition",
        |card, edition, packed, out| {
            let edition = if (1..=4).contains(&edition) {
                4
            } else {
                edition
            };
            expected_export(card, edition, packed, out)
        },
    ),
    exports("read at edition 2", |card, edition, packed, out| {
        let edition = if (1..=4).contains(&edition) {
            2
        } else {
            edition
        };
        expected_export(card, edition, packed, out)
    }),
    exports(
        "read at the edition that wrote it",
        |card, edition, packed, out| match card.elements().get(WRITTEN) {
            Some(&written @ 1..=4) if (1..=4).contains(&edition) => {
                expected_export(card, written, packed, out)
            }
            _ => expected_export(card, edition, packed, out),
        },
    ),
    exports("edition 5 exports as 4", |card, edition, packed, out| {
        let edition = if edition == 5 { 4 } else { edition };
        expected_export(card, edition, packed, out)
    }),
    tells_file(
        "the file's length at the newest edition",
        |card, edition| {
            let edition = if (1..=4).contains(&edition) {
                4
            } else {
                edition
            };
            expected_export_len(card, edition)
        },
    ),
    tells_file("the file's length at edition 5", |card, edition| {
        let edition = if edition == 5 { 4 } else { edition };
        expected_export_len(card, edition)
    }),
];

/// Exports with these rows after the reading's.
fn rows(
    card: &mut Guarded<u8>,
    edition: u8,
    packed: &mut Guarded<u8>,
    out: &mut Guarded<u8>,
    rows: &'static [ExportRow],
) -> i64 {
    exported(card, edition, packed, out, &Exporting { rows, ..EXPORTING })
}
