//! Mistakes in lent memory: outputs that a refusal changes, and inputs that any call does.

use crate::guarded::Guarded;
use crate::library::picture::Imported;
use crate::picture::{expected_export, expected_export_len, expected_import, expected_import_len};

use super::super::Wrong;
use super::{exports, imports, tells_file, tells_points};

/// The file is begun before a refusal is found.
macro_rules! begun_before {
    ($($mistake:literal: $refusal:literal,)*) => {
        pub const BEGUN: &[Wrong] = &[$(
            exports($mistake, |card, edition, packed, out| {
                let answer = expected_export(card, edition, packed, out);
                if answer == -$refusal {
                    begin(out);
                }
                answer
            }),
        )*];
    };
}

begun_before! {
    "a file begun before 17 is found": 17,
    "a file begun before 13 is found": 13,
    "a file begun before 9 is found": 9,
    "a file begun before 16 is found": 16,
    "a file begun before 10 is found": 10,
    "a file begun before 8 is found": 8,
    "a file begun before 7 is found": 7,
    "a file begun before 1 is found": 1,
}

fn begin(out: &mut Guarded<u8>) {
    for (byte, made) in out.output().iter_mut().zip(b"P6\n") {
        *byte = *made;
    }
}

/// What an import leaves in its rooms though it is refused.
macro_rules! left {
    ($($mistake:literal: $refusal:literal, $leave:expr,)*) => {
        pub const LEFT: &[Wrong] = &[$(
            imports($mistake, |ppm, item, primaries, made| {
                let answer = expected_import(ppm, item, primaries, made);
                if answer == -$refusal {
                    let leave: fn(&mut Imported) = $leave;
                    leave(made);
                }
                answer
            }),
        )*];
    };
}

left! {
    "a card written before 18 is found": 18, |made| store(&mut made.card),
    "points stored before 18 is found": 18, |made| store(&mut made.packed),
    "points cleared before 18 is found": 18, |made| made.packed.output().fill(0),
    "a card written before 13 is found": 13, |made| store(&mut made.card),
    "points stored before 13 is found": 13, |made| store(&mut made.packed),
    "a card written before 9 is found": 9, |made| store(&mut made.card),
    "points stored before 9 is found": 9, |made| store(&mut made.packed),
}

fn store(room: &mut Guarded<u8>) {
    if let [first, ..] = room.output() {
        *first = 1;
    }
}

pub const WRONG: &[Wrong] = &[
    imports(
        "a card written before a code above is found",
        |ppm, item, primaries, made| {
            let answer = expected_import(ppm, item, primaries, made);
            // A header that is told of, and 18: a code is above.
            if answer == -18 && expected_import_len(ppm) > 0 {
                made.card.output().copy_from_slice(&[1; 32]);
            }
            answer
        },
    ),
    imports(
        "points stored up to a code above",
        |ppm, item, primaries, made| {
            let answer = expected_import(ppm, item, primaries, made);
            if answer == -18 && expected_import_len(ppm) > 0 {
                made.packed.output()[0] = 5;
            }
            answer
        },
    ),
    exports(
        "the card marked as exported",
        |card, edition, packed, out| {
            let answer = expected_export(card, edition, packed, out);
            if answer > 0 {
                card.output()[31] = 1;
            }
            answer
        },
    ),
    exports(
        "unused bits cleared where they lie",
        |card, edition, packed, out| {
            let answer = expected_export(card, edition, packed, out);
            if let (1.., Some(4)) = (answer, card.elements().get(6)) {
                packed.output()[3] &= 0x3f;
            }
            answer
        },
    ),
    exports(
        "points converted where they lie",
        |card, edition, packed, out| {
            let answer = expected_export(card, edition, packed, out);
            if answer > 0 && card.elements()[4] == 1 {
                packed.output()[0] ^= 0x80;
            }
            answer
        },
    ),
    exports(
        "a byte after the file changed",
        |card, edition, packed, out| {
            let answer = expected_export(card, edition, packed, out);
            if answer > 0 {
                let length = out.length();
                out.output_and_beyond()[length] = 0;
            }
            answer
        },
    ),
    imports(
        "the file's first byte changed",
        |ppm, item, primaries, made| {
            let answer = expected_import(ppm, item, primaries, made);
            if answer > 0 {
                ppm.output()[0] = b'Q';
            }
            answer
        },
    ),
    imports(
        "codes turned where they lie",
        |ppm, item, primaries, made| {
            let answer = expected_import(ppm, item, primaries, made);
            if answer > 0 && made.packed.length() % 3 != 0 {
                let last = ppm.length() - 2;
                ppm.output()[last..].reverse();
            }
            answer
        },
    ),
    tells_file("a card closed where it is refused", |card, edition| {
        let answer = expected_export_len(card, edition);
        if answer == -17 {
            card.output()[24] = 0;
        }
        answer
    }),
    tells_points("a newline set where it is missing", |ppm| {
        let answer = expected_import_len(ppm);
        if let (-18, [.., last]) = (answer, ppm.output()) {
            *last = b'\n';
        }
        answer
    }),
];
