//! Refusals told by hand, those that compete among them.

use crate::card::Card;
use crate::guarded::Guarded;
use crate::library::picture::Imported;
use crate::library::Library;
use crate::stack::stacks::changed;
use crate::tally::{Flow, Tally};
use crate::wrong::REFERENCE;

use super::super::{Export, Import};

/// Item 7, open: two points of full-range R'G'B', 8 bits, one above the other.
const OPEN: Card = [
    1, 2, 1, 1, 2, 8, 3, 0, 0, 8, 16, 0, 1, 0, 2, 0, //
    7, 0, 0, 0, 0, 0, 0, 0, 2, 0, 0, 0, 0, 0, 0, 0,
];

/// The same of 12 bits, of an early capture, and of groups, two beside each other.
const WIDE: Card = [
    2, 2, 1, 1, 2, 12, 5, 0, 0, 12, 24, 0, 1, 0, 2, 0, //
    7, 0, 0, 0, 0, 0, 0, 0, 2, 0, 0, 0, 0, 0, 0, 0,
];
const EARLY: Card = [
    3, 3, 1, 1, 3, 8, 3, 0, 0, 8, 16, 0, 1, 0, 2, 0, //
    7, 0, 0, 0, 0, 0, 0, 0, 2, 0, 0, 0, 0, 0, 0, 0,
];
const GROUPS: Card = [
    4, 4, 2, 1, 1, 8, 4, 1, 0, 0, 0, 0, 2, 0, 1, 0, //
    7, 0, 0, 0, 0, 0, 0, 0, 2, 0, 0, 0, 0, 0, 0, 0,
];

/// The bytes of the points of the first card, and of its file; of 12 bits; of groups.
const RIGHT: [usize; 2] = [6, 17];
const RIGHT_12: [usize; 2] = [10, 24];
const RIGHT_GROUPS: [usize; 2] = [4, 17];

/// A card with bytes changed, an edition, the lengths of points and file, and the answer.
type Refused = (
    &'static str,
    Card,
    &'static [(usize, u8)],
    u8,
    [usize; 2],
    i64,
);

const EXPORTING: &[Refused] = &[
    // Accepted.
    ("open at 2", OPEN, &[], 2, RIGHT, 2),
    ("open at 4", OPEN, &[], 4, RIGHT, 2),
    ("12 bits at 2", WIDE, &[], 2, RIGHT_12, 2),
    ("groups at 4", GROUPS, &[], 4, RIGHT_GROUPS, 2),
    ("open from 5 at 4", OPEN, &[(1, 5), (31, 1)], 4, RIGHT, 2),
    ("open from 4 at 2", OPEN, &[(1, 4)], 2, RIGHT, 2),
    // 17: by the access that is shown.
    ("closed", OPEN, &[(24, 0)], 2, RIGHT, -17),
    ("community", OPEN, &[(24, 1)], 2, RIGHT, -17),
    ("community at 4", GROUPS, &[(24, 1)], 4, RIGHT_GROUPS, -17),
    ("open at 1", OPEN, &[], 1, RIGHT, -17),
    ("from 1", OPEN, &[(1, 1), (24, 0)], 4, RIGHT, -17),
    ("access 3 from 5", OPEN, &[(1, 5), (24, 3)], 4, RIGHT, -17),
    (
        "access 255 from 4 at 3",
        OPEN,
        &[(1, 4), (24, 255)],
        3,
        RIGHT,
        -17,
    ),
    ("access 3 at 1", OPEN, &[(24, 3)], 1, RIGHT, -17),
    // The reading's refusals come first, also before 13.
    ("edition 0", OPEN, &[(24, 0)], 0, [0, 17], -7),
    ("edition 5", EARLY, &[(24, 0)], 5, [0, 17], -7),
    ("byte 0 is 0", OPEN, &[(0, 0), (24, 1)], 2, [0, 17], -9),
    ("12 bits at 1", WIDE, &[], 1, [0, 17], -8),
    ("early at 2", EARLY, &[(24, 0)], 2, [0, 17], -8),
    ("groups at 3", GROUPS, &[(24, 0)], 3, [0, 17], -8),
    ("byte 11", OPEN, &[(11, 1), (24, 0)], 2, [0, 17], -9),
    ("range 4", OPEN, &[(4, 4), (24, 0)], 4, [0, 17], -9),
    ("an odd width", GROUPS, &[(12, 3), (24, 0)], 4, [0, 17], -16),
    (
        "an odd width of points",
        OPEN,
        &[(12, 3), (24, 0)],
        4,
        [0, 17],
        -17,
    ),
    ("access 3", OPEN, &[(24, 3)], 2, [0, 17], -10),
    ("byte 31", OPEN, &[(24, 0), (31, 1)], 2, [0, 17], -9),
    ("access from 1", OPEN, &[(1, 1)], 2, [0, 17], -9),
    // 9 for range 3, after them and before 17.
    ("early at 3", EARLY, &[], 3, RIGHT, -9),
    ("early at 4, closed", EARLY, &[(24, 0)], 4, RIGHT, -9),
    ("early, lengths", EARLY, &[(24, 1)], 3, [0, 0], -9),
    ("early, access 3", EARLY, &[(24, 3)], 3, [0, 0], -10),
    (
        "early, access 3 from 4",
        EARLY,
        &[(1, 4), (24, 3)],
        3,
        RIGHT,
        -9,
    ),
    ("early groups", GROUPS, &[(4, 3), (24, 0)], 4, [0, 0], -9),
    (
        "early groups, an odd width",
        GROUPS,
        &[(4, 3), (12, 1)],
        4,
        [0, 0],
        -16,
    ),
    // 13, last.
    ("closed, lengths", OPEN, &[(24, 0)], 2, [0, 0], -17),
    ("open at 1, lengths", OPEN, &[], 1, [7, 16], -17),
    ("too few points", OPEN, &[], 2, [5, 17], -13),
    ("too many points", OPEN, &[], 2, [7, 17], -13),
    ("one point", OPEN, &[], 2, [3, 17], -13),
    ("no points", OPEN, &[], 2, [0, 17], -13),
    ("a file too short", OPEN, &[], 2, [6, 16], -13),
    ("a file too long", OPEN, &[], 2, [6, 18], -13),
    ("no file", OPEN, &[], 2, [6, 0], -13),
    ("12 bits in 8", WIDE, &[], 2, [10, 17], -13),
    ("12 bits in 6 bytes", WIDE, &[], 2, [12, 24], -13),
    ("groups of 3 bytes a point", GROUPS, &[], 4, [6, 17], -13),
    ("groups of 4 bytes a point", GROUPS, &[], 4, [8, 17], -13),
];

pub fn exporting(library: &Library, tally: &mut Tally) -> Flow {
    for (program, library) in [("library", library), ("reference", &REFERENCE)] {
        for &(name, card, bytes, edition, [packed, file], must_be) in EXPORTING {
            let card = changed(card, bytes);
            let export = Export::of(library.ppm_export, &card, edition, &vec![9; packed], file);
            let answer = export.outcome.answer;
            let kept = must_be >= 0 || export.outcome.output == Guarded::new(file);
            tally.compare(answer == must_be && kept, || {
                format!("{name}, {program}, exported: {answer}, must be {must_be}")
            })?;
            // The length is told but for 13.
            let mut lent = Guarded::holding(&card);
            let told = (library.ppm_export_len)(&mut lent, edition);
            let same = match must_be {
                -13 => told > 0,
                0.. => told == file as i64,
                refusal => told == refusal,
            };
            let kept = lent == Guarded::holding(&card);
            tally.compare(same && kept, || {
                format!("{name}, {program}: {told} bytes told")
            })?;
        }
        // 1 before all.
        for length in [0, 31, 33] {
            let card = changed(OPEN, &[(24, 0)]).repeat(2);
            let export = Export::of(library.ppm_export, &card[..length], 5, &[], 5);
            let answer = export.outcome.answer;
            let told = (library.ppm_export_len)(&mut Guarded::holding(&card[..length]), 5);
            let kept = export.outcome.output == Guarded::new(5);
            tally.compare([answer, told] == [-1; 2] && kept, || {
                format!("a card of {length} bytes, {program}: {answer}, {told} bytes told")
            })?;
        }
    }
    Flow::Continue(())
}

const HEADER_8: &str = "P6\n1 2\n255\n";
const HEADER_10: &str = "P6\n1 2\n1023\n";
const HEADER_12: &str = "P6\n1 2\n4095\n";

/// Room for a card, and for points of 8 and of 12 bits.
const ROOM: [usize; 2] = [32, 6];
const ROOM_10: [usize; 2] = [32, 8];
const ROOM_12: [usize; 2] = [32, 10];

/// A header, what follows it, the item and primaries, the rooms, and the answer.
type NotImported = (
    &'static str,
    &'static str,
    &'static [u8],
    (u64, u8),
    [usize; 2],
    i64,
);

const GOOD_12: &[u8] = &[0, 1, 2, 3, 15, 255, 15, 255, 0, 0, 8, 0];
const ABOVE_12: &[u8] = &[0, 1, 2, 3, 15, 255, 15, 255, 0, 0, 16, 0];
const ABOVE_10: &[u8] = &[4, 0, 2, 3, 3, 255, 3, 255, 0, 0, 2, 0];

const IMPORTING: &[NotImported] = &[
    ("8 bits", HEADER_8, &[255; 6], (7, 1), ROOM, 2),
    ("12 bits", HEADER_12, GOOD_12, (7, 4), ROOM_12, 2),
    // 9 before all.
    ("item 0", HEADER_8, &[0; 6], (0, 1), ROOM, -9),
    ("primaries 0", HEADER_8, &[0; 6], (7, 0), ROOM, -9),
    ("primaries 5", HEADER_8, &[0; 6], (7, 5), ROOM, -9),
    ("primaries 255", HEADER_8, &[0; 6], (7, 255), ROOM, -9),
    ("item 0, no file", "", &[], (0, 1), [0, 0], -9),
    ("item 0, lengths", HEADER_8, &[], (0, 1), [0, 0], -9),
    (
        "primaries 5, a code above",
        HEADER_12,
        ABOVE_12,
        (7, 5),
        ROOM_12,
        -9,
    ),
    (
        "primaries 0, a header cut short",
        "P6\n1 2\n",
        &[],
        (7, 0),
        [31, 6],
        -9,
    ),
    // 18 for a header, before 13.
    ("no file", "", &[], (7, 1), [0, 0], -18),
    ("cut short", "P6\n1 2\n255", &[], (7, 1), ROOM, -18),
    (
        "cut short in the largest",
        "P6\n1 2\n25",
        &[],
        (7, 1),
        ROOM,
        -18,
    ),
    ("P5", "P5\n1 2\n255\n", &[0; 6], (7, 1), ROOM, -18),
    ("P3, lengths", "P3\n1 2\n255\n", &[], (7, 1), [0, 0], -18),
    (
        "4,097 wide",
        "P6\n4097 1\n255\n",
        &[0; 6],
        (7, 1),
        ROOM,
        -18,
    ),
    ("0 high", "P6\n1 0\n255\n", &[], (7, 1), [32, 0], -18),
    ("256", "P6\n1 2\n256\n", &[0; 6], (7, 1), ROOM, -18),
    ("65535", "P6\n1 2\n65535\n", &[0; 12], (7, 1), ROOM, -18),
    // 13 for what follows and for rooms, before 18 for a code.
    ("a byte too few", HEADER_8, &[0; 5], (7, 1), ROOM, -13),
    ("a byte too many", HEADER_8, &[0; 7], (7, 1), ROOM, -13),
    (
        "a newline too many",
        HEADER_8,
        b"123456\n",
        (7, 1),
        ROOM,
        -13,
    ),
    ("no points", HEADER_8, &[], (7, 1), ROOM, -13),
    (
        "12 bits in one byte a code",
        HEADER_12,
        &[0; 6],
        (7, 1),
        ROOM_12,
        -13,
    ),
    ("no card", HEADER_8, &[0; 6], (7, 1), [0, 6], -13),
    (
        "a card of 31 bytes",
        HEADER_8,
        &[0; 6],
        (7, 1),
        [31, 6],
        -13,
    ),
    (
        "a card of 64 bytes",
        HEADER_8,
        &[0; 6],
        (7, 1),
        [64, 6],
        -13,
    ),
    ("room too small", HEADER_8, &[0; 6], (7, 1), [32, 5], -13),
    ("room too large", HEADER_8, &[0; 6], (7, 1), [32, 7], -13),
    (
        "12 bits, room of 6 a point",
        HEADER_12,
        GOOD_12,
        (7, 1),
        [32, 12],
        -13,
    ),
    (
        "a code above, a card of 31",
        HEADER_12,
        ABOVE_12,
        (7, 1),
        [31, 10],
        -13,
    ),
    (
        "a code above, room too small",
        HEADER_12,
        ABOVE_12,
        (7, 1),
        [32, 9],
        -13,
    ),
    (
        "a code above, a byte too few",
        HEADER_12,
        &[255; 11],
        (7, 1),
        ROOM_12,
        -13,
    ),
    (
        "a code above, a point too many",
        HEADER_12,
        &[255; 18],
        (7, 1),
        ROOM_12,
        -13,
    ),
    // 18 for a code, last.
    ("4,096", HEADER_12, ABOVE_12, (7, 1), ROOM_12, -18),
    ("1,024", HEADER_10, ABOVE_10, (7, 1), ROOM_10, -18),
    ("65,535", HEADER_10, &[255; 12], (7, 1), ROOM_10, -18),
];

pub fn importing(library: &Library, tally: &mut Tally) -> Flow {
    for (program, library) in [("library", library), ("reference", &REFERENCE)] {
        for &(name, header, points, (item, primaries), [card, packed], must_be) in IMPORTING {
            let ppm = [header.as_bytes(), points].concat();
            let room = Imported::with(card, packed);
            let import = Import::of(library.ppm_import, &ppm, item, primaries, room.clone());
            let answer = import.answer;
            let kept = must_be >= 0 || import.made == room;
            tally.compare(answer == must_be && kept, || {
                format!("{name}, {program}, imported: {answer}, must be {must_be}")
            })?;
        }
        // Of the length only the header is looked at.
        for (ppm, must_be) in [
            (HEADER_8, 6),
            (HEADER_10, 8),
            (HEADER_12, 10),
            ("P6\n4096 4096\n255\n", 50_331_648),
            ("P6\n4096 4096\n4095\n", 83_886_080),
            ("P6\n1 1\n255\n\u{1}and more", 3),
            ("P6\n1 2\n255", -18),
            ("", -18),
        ] {
            let mut file = Guarded::holding(ppm.as_bytes());
            let told = (library.ppm_import_len)(&mut file);
            tally.compare(told == must_be, || {
                format!("{ppm:?}, {program}: {told} bytes told, must be {must_be}")
            })?;
        }
    }
    Flow::Continue(())
}
