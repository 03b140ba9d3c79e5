//! Mistakes in lengths: of points and files that are taken, and those that are told.

use crate::guarded::Guarded;
use crate::library::picture::Imported;
use crate::picture::{expected_export, expected_export_len, expected_import};
use crate::plain::picture::{begun, Size};

use super::super::Wrong;
use super::{exports, imports, tells_file, tells_points};

/// Points or files of other lengths that are exported. What is missing is taken as zeros.
macro_rules! exporting {
    ($($mistake:literal: $packed:expr, $out:expr,)*) => {
        pub const EXPORTING: &[Wrong] = &[$(
            exports($mistake, |card, edition, packed, out| {
                match expected_export(card, edition, packed, &mut out.clone()) {
                    -13 => exported(card, edition, packed, out, $packed, $out),
                    _ => expected_export(card, edition, packed, out),
                }
            }),
        )*];
    };
}

/// Whether a length is taken where another is needed.
type Takes = fn(usize, usize) -> bool;

const RIGHT: Takes = |length, needed| length == needed;

exporting! {
    "too many points exported": |length, needed| length >= needed, RIGHT,
    "a byte too many exported": |length, needed| length == needed || length == needed + 1, RIGHT,
    "too few points exported": |length, needed| length <= needed, RIGHT,
    "a byte too few exported": |length, needed| length == needed || length + 1 == needed, RIGHT,
    "the points' length in 16 bits": |length, needed| length % 65_536 == needed, RIGHT,
    "the points' length in 8 bits": |length, needed| length % 256 == needed, RIGHT,
    "a file too long": RIGHT, |length, needed| length >= needed,
    "a file a byte too long": RIGHT, |length, needed| length == needed || length == needed + 1,
    "a file too short": RIGHT, |length, needed| length <= needed,
    "a file a byte too short": RIGHT, |length, needed| length == needed || length + 1 == needed,
    "a file's length in 16 bits": RIGHT, |length, needed| length % 65_536 == needed,
    "a file's length in 8 bits": RIGHT, |length, needed| length % 256 == needed,
    "any lengths": |_, _| true, |_, _| true,
}

/// The file of as many points as are needed, as far as it fits.
fn exported(
    card: &mut Guarded<u8>,
    edition: u8,
    packed: &Guarded<u8>,
    out: &mut Guarded<u8>,
    takes_packed: Takes,
    takes_out: Takes,
) -> i64 {
    let file = expected_export_len(card, edition) as usize;
    let needed = packed_needed(card.elements());
    if !takes_packed(packed.length(), needed) || !takes_out(out.length(), file) {
        return -13;
    }
    let mut points = packed.elements().to_vec();
    points.resize(needed, 0);
    let mut made = Guarded::new(file);
    let answer = expected_export(card, edition, &mut Guarded::holding(&points), &mut made);
    for (byte, made) in out.output().iter_mut().zip(made.elements()) {
        *byte = *made;
    }
    answer
}

/// The bytes of an accepted card's points.
fn packed_needed(card: &[u8]) -> usize {
    let [width, height] = sides(card);
    match card[7] {
        1 => 2 * width * height,
        _ => width * height * usize::from(card[6]),
    }
}

fn sides(card: &[u8]) -> [usize; 2] {
    [12, 14].map(|place| usize::from(card[place]) + 256 * usize::from(card[place + 1]))
}

/// A file's length that is told otherwise, by its points and bits.
macro_rules! telling_of_files {
    ($($mistake:literal: $told:expr,)*) => {
        pub const OF_FILES: &[Wrong] = &[$(
            tells_file($mistake, |card, edition| match expected_export_len(card, edition) {
                file @ 1.. => {
                    let card = card.elements();
                    let told: fn(i64, [i64; 2], u8) -> i64 = $told;
                    told(file, sides(card).map(|side| side as i64), card[5])
                }
                refusal => refusal,
            }),
        )*];
    };
}

telling_of_files! {
    "a file's length without the header": |_, [width, height], depth| {
        width * height * if depth == 8 { 3 } else { 6 }
    },
    "a file's length with a header of 15 bytes": |_, [width, height], depth| {
        15 + width * height * if depth == 8 { 3 } else { 6 }
    },
    "a file's length of one byte a code": |file, [width, height], depth| {
        if depth == 8 { file } else { file - 3 * width * height }
    },
    "a file's length of two bytes a code": |file, [width, height], depth| {
        if depth == 8 { file + 3 * width * height } else { file }
    },
    "a file's length of two bytes at 12 bits alone": |file, [width, height], depth| {
        if depth == 10 { file - 3 * width * height } else { file }
    },
    "the count of points for a file's length": |_, [width, height], _| width * height,
    "a file's length in 24 bits": |file, _, _| file % (1 << 24),
    "a file's length in 16 bits, told": |file, _, _| file % (1 << 16),
    "a file's length with three digits a side": |file, [width, height], _| {
        file - i64::from(width > 999) - i64::from(height > 999)
    },
    "a file's length with the largest code of three digits": |file, _, depth| {
        if depth == 8 { file } else { file - 1 }
    },
    "a file's length and a byte": |file, _, _| file + 1,
    "a file's length of an even count": |file, _, _| file + file % 2,
}

/// The length of points that is told otherwise.
macro_rules! telling_of_points {
    ($($mistake:literal: $told:expr,)*) => {
        pub const OF_POINTS: &[Wrong] = &[$(
            tells_points($mistake, |ppm| match begun(ppm.elements()) {
                Some((size, points)) => {
                    let told: fn(Size, &[u8]) -> i64 = $told;
                    told(size, points)
                }
                None => -18,
            }),
        )*];
    };
}

telling_of_points! {
    "18 without the points": |size, points| match points.len() {
        0 => -18,
        _ => right(size),
    },
    "18 with other bytes than the points": |size, points| match points.len() == size.bytes() {
        true => right(size),
        false => -18,
    },
    "13 with other bytes than the points": |size, points| match points.len() == size.bytes() {
        true => right(size),
        false => -13,
    },
    "the points that are there": |size, points| match size.depth {
        8 => points.len() as i64,
        _ => right(size),
    },
    "3 bytes a point at every depth": |size, _| 3 * size.points() as i64,
    "6 bytes a point above 8 bits": |size, _| match size.depth {
        8 => right(size),
        _ => 6 * size.points() as i64,
    },
    "5 bytes a point at 10 bits": |size, _| match size.depth {
        10 => 5 * size.points() as i64,
        _ => right(size),
    },
    "6 bytes a point at 12 bits, told": |size, _| match size.depth {
        12 => 6 * size.points() as i64,
        _ => right(size),
    },
    "4 bytes a point at 8 bits": |size, _| match size.depth {
        8 => 4 * size.points() as i64,
        _ => right(size),
    },
    "the count of points for their bytes": |size, _| size.points() as i64,
    "the points' bytes in 24 bits": |size, _| right(size) % (1 << 24),
    "the points' bytes in 26 bits": |size, _| right(size) % (1 << 26),
    "18 for a code above the largest, told": |size, points| match points.first() {
        Some(high) if size.depth > 8 && *high > 15 => -18,
        _ => right(size),
    },
}

fn right(size: Size) -> i64 {
    let each = match size.depth {
        8 => 3,
        10 => 4,
        _ => 5,
    };
    each * size.points() as i64
}

/// Imports into rooms, or of points, of other lengths.
macro_rules! importing {
    ($($mistake:literal: $instead:expr,)*) => {
        pub const IMPORTING: &[Wrong] = &[$(
            imports($mistake, |ppm, item, primaries, made| {
                match expected_import(ppm, item, primaries, &mut made.clone()) {
                    -13 => imported(ppm, item, primaries, made, $instead),
                    _ => expected_import(ppm, item, primaries, made),
                }
            }),
        )*];
    };
}

/// Lengths of the points in the file, of the card's room and of that for points.
type Lengths = [usize; 3];

// Those that are there, and those that are needed.
importing! {
    "more bytes after the points": |[points, card, packed], [given, size, needed]| {
        points >= given && card == size && packed == needed
    },
    "a byte more after the points": |[points, card, packed], [given, size, needed]| {
        (points == given || points == given + 1) && card == size && packed == needed
    },
    "fewer bytes of points": |[points, card, packed], [given, size, needed]| {
        points <= given && card == size && packed == needed
    },
    "a byte fewer of points": |[points, card, packed], [given, size, needed]| {
        points <= given && points + 1 >= given && card == size && packed == needed
    },
    "points of 16 bits of length": |[points, card, packed], [given, size, needed]| {
        points % 65_536 == given && card == size && packed == needed
    },
    "a longer card": |[points, card, packed], [given, size, needed]| {
        points == given && card >= size && packed == needed
    },
    "a shorter card": |[points, card, packed], [given, size, needed]| {
        points == given && card <= size && packed == needed
    },
    "any room for a card": |[points, _, packed], [given, _, needed]| {
        points == given && packed == needed
    },
    "more room for points": |[points, card, packed], [given, size, needed]| {
        points == given && card == size && packed >= needed
    },
    "less room for points": |[points, card, packed], [given, size, needed]| {
        points == given && card == size && packed <= needed
    },
    "a byte less of room for points": |[points, card, packed], [given, size, needed]| {
        points == given && card == size && packed <= needed && packed + 1 >= needed
    },
    "rooms of 8 bits of length": |[points, card, packed], [given, size, needed]| {
        points == given && card % 256 == size && packed % 256 == needed
    },
    "rooms of 16 bits of length": |[points, card, packed], [given, size, needed]| {
        points == given && card % 65_536 == size && packed % 65_536 == needed
    },
}

/// What is made of as many points as are needed, if these lengths are taken.
fn imported(
    ppm: &Guarded<u8>,
    item: u64,
    primaries: u8,
    made: &mut Imported,
    takes: fn(Lengths, Lengths) -> bool,
) -> i64 {
    let (size, points) = begun(ppm.elements()).expect("13 comes after a header");
    let header = ppm.length() - points.len();
    let needed = right(size) as usize;
    let lengths = [points.len(), made.card.length(), made.packed.length()];
    if !takes(lengths, [size.bytes(), 32, needed]) {
        return -13;
    }
    let mut file = ppm.elements().to_vec();
    file.resize(header + size.bytes(), 0);
    let mut whole = Imported::new(needed);
    let answer = expected_import(&mut Guarded::holding(&file), item, primaries, &mut whole);
    if answer > 0 {
        fill(&mut made.card, &whole.card);
        fill(&mut made.packed, &whole.packed);
    }
    answer
}

/// As far as it fits.
fn fill(room: &mut Guarded<u8>, made: &Guarded<u8>) {
    for (byte, made) in room.output().iter_mut().zip(made.elements()) {
        *byte = *made;
    }
}
