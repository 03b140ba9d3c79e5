//! Pictures, code by code: each order of refusals is a list of rows, of which the first that
//! applies is answered, and headers are written and read digit by digit.

use reference::card::Facts;

use crate::card::{Card, SIZE};
use crate::guarded::Guarded;
use crate::layouts::{bytes_a_point, is_grouped, DEPTH, LEGACY, MODEL, PRIMARIES, RANGE};
use crate::library::picture::Imported;
use crate::library::{Conversion, Direction, Layout};

use super::card::{self, stated, Asked, Row, Shown, READING};
use super::color;
use super::lines::{load_fields, place, store_fields, Place};
use super::stack::number;

const FULL: u8 = 2;

/// The sides of a picture, and the bits of a code.
#[derive(Clone, Copy)]
pub struct Size {
    pub width: u16,
    pub height: u16,
    pub depth: u8,
}

impl Size {
    pub fn points(self) -> usize {
        usize::from(self.width) * usize::from(self.height)
    }

    pub fn largest(self) -> u16 {
        match self.depth {
            8 => 255,
            10 => 1023,
            _ => 4095,
        }
    }

    /// The bytes of all codes in a file.
    pub fn bytes(self) -> usize {
        match self.depth {
            8 => 3 * self.points(),
            _ => 6 * self.points(),
        }
    }
}

/// What is asked of an export, of a card that is read.
pub struct Shot {
    /// With the access that is shown.
    pub facts: Facts,
    pub card: Card,
    pub packed: usize,
    pub out: usize,
    /// The bytes that the file must have.
    pub file: usize,
}

/// A refusal's number and when it is given.
pub type ExportRow = (i64, fn(&Shot) -> bool);

/// What makes an export. Each piece can be exchanged for a wrong one.
#[derive(Clone, Copy)]
pub struct Exporting {
    pub reading: &'static [Row],
    pub shown: Shown,
    pub rows: &'static [ExportRow],
    pub header: fn(Size) -> Vec<u8>,
    /// Where the bits of codes lie among those of a point or a group.
    pub place: Place,
    /// A code of narrow R'G'B', and those of a point of Y'CbCr, in full range.
    pub narrow: fn(u8, u16) -> u16,
    pub color: fn(Conversion, [u16; 3]) -> [u16; 3],
    /// A code as a file has it.
    pub store: fn(u8, u16, &mut Vec<u8>),
}

pub const EXPORTING: Exporting = Exporting {
    reading: &READING,
    shown: card::shown,
    rows: &EXPORT_ROWS,
    header,
    place,
    narrow,
    color,
    store,
};

pub const EXPORT_ROWS: [ExportRow; 4] = [LEGACY_RANGE, NOT_OPEN, PACKED, OUT];

pub const LEGACY_RANGE: ExportRow = (9, |shot| shot.facts.layout[RANGE] == LEGACY);
pub const NOT_OPEN: ExportRow = (17, |shot| shot.facts.access != 2);
pub const PACKED: ExportRow = (13, |shot| shot.packed != packed_bytes(&shot.facts));
pub const OUT: ExportRow = (13, |shot| shot.out != shot.file);

/// Exports with the given pieces.
pub fn exported(
    card: &mut Guarded<u8>,
    edition: u8,
    packed: &mut Guarded<u8>,
    out: &mut Guarded<u8>,
    pieces: &Exporting,
) -> i64 {
    let shot = match shot(card, edition, pieces) {
        Ok(shot) => Shot {
            packed: packed.length(),
            out: out.length(),
            ..shot
        },
        Err(refusal) => return refusal,
    };
    if let Some(refusal) = first(pieces.rows, &shot) {
        return refusal;
    }
    let file = file(&shot.facts, packed.elements(), pieces);
    for (byte, made) in out.output().iter_mut().zip(file) {
        *byte = made;
    }
    size(&shot.facts).points() as i64
}

/// The length that is told with the given pieces: rows about lengths are left out.
pub fn export_told(card: &mut Guarded<u8>, edition: u8, pieces: &Exporting) -> i64 {
    let shot = match shot(card, edition, pieces) {
        Ok(shot) => shot,
        Err(refusal) => return refusal,
    };
    let mut rows = pieces.rows.iter().filter(|&&(number, _)| number != 13);
    match rows.find(|(_, applies)| applies(&shot)) {
        Some((number, _)) => -number,
        None => shot.file as i64,
    }
}

/// What is read of a card, or its refusal.
fn shot(card: &mut Guarded<u8>, edition: u8, pieces: &Exporting) -> Result<Shot, i64> {
    let asked = Asked::new(card.elements(), edition);
    match card::refusal(&asked, pieces.reading) {
        0 => {
            let facts = stated(&asked.card, (pieces.shown)(&asked));
            let size = size(&facts);
            Ok(Shot {
                facts,
                card: asked.card,
                packed: 0,
                out: 0,
                file: (pieces.header)(size).len() + size.bytes(),
            })
        }
        refusal => Err(refusal),
    }
}

fn first(rows: &[ExportRow], shot: &Shot) -> Option<i64> {
    let row = rows.iter().find(|(_, applies)| applies(shot));
    row.map(|(number, _)| -number)
}

fn size(facts: &Facts) -> Size {
    Size {
        width: facts.width,
        height: facts.height,
        depth: facts.layout[DEPTH],
    }
}

/// The bytes of a picture's points or groups.
pub fn packed_bytes(facts: &Facts) -> usize {
    match is_grouped(facts.layout) {
        true => 2 * size(facts).points(),
        false => size(facts).points() * bytes_a_point(facts.layout),
    }
}

/// The bytes of a picture's file.
fn file(facts: &Facts, packed: &[u8], pieces: &Exporting) -> Vec<u8> {
    let layout = facts.layout;
    let mut codes = vec![0; 3 * size(facts).points()];
    load_fields(layout, packed, &mut codes, pieces.place);
    let mut file = (pieces.header)(size(facts));
    let (points, _) = codes.as_chunks();
    for &point in points {
        for code in full_rgb(layout, point, pieces) {
            (pieces.store)(layout[DEPTH], code, &mut file);
        }
    }
    file
}

fn full_rgb(layout: Layout, point: [u16; 3], pieces: &Exporting) -> [u16; 3] {
    let depth = layout[DEPTH];
    match (layout[MODEL], layout[RANGE]) {
        (1, FULL) => point,
        (1, _) => point.map(|code| (pieces.narrow)(depth, code)),
        (_, range) => (pieces.color)([layout[PRIMARIES], depth, range, FULL], point),
    }
}

/// (c - 16s)/(219s) of m, rounded at a half and clamped.
pub fn narrow(depth: u8, code: u16) -> u16 {
    let (s, m) = (1 << (depth - 8), (1 << depth) - 1);
    let above_black = i64::from(code) - 16 * s;
    let twice = 2 * above_black * m + 219 * s;
    twice.div_euclid(2 * 219 * s).clamp(0, m) as u16
}

/// By the conversion of lines, a point at a time.
pub fn color(conversion: Conversion, point: [u16; 3]) -> [u16; 3] {
    let numbers = color::numbers(Direction::YcbcrToRgb, conversion, color::PIECES, point);
    let scales = color::made_scales(Direction::YcbcrToRgb, conversion);
    let [_, depth, ..] = conversion;
    [0, 1, 2].map(|channel| {
        let number = color::rounded(scales[channel], numbers[channel]);
        number.clamp(0, (1 << depth) - 1) as u16
    })
}

/// The high byte first, where there are two.
pub fn store(depth: u8, code: u16, file: &mut Vec<u8>) {
    if depth > 8 {
        file.push((code >> 8) as u8);
    }
    file.push(code as u8);
}

pub fn header(size: Size) -> Vec<u8> {
    let mut text = b"P6\n".to_vec();
    number(&mut text, size.width.into());
    text.push(b' ');
    number(&mut text, size.height.into());
    text.push(b'\n');
    number(&mut text, size.largest().into());
    text.push(b'\n');
    text
}

/// What is asked of an import.
pub struct Given<'a> {
    pub item: u64,
    pub primaries: u8,
    /// None where it is not of our form. Then no other row may apply but the first.
    pub size: Option<Size>,
    /// What follows the header.
    pub points: &'a [u8],
    pub layout: Layout,
    pub card: usize,
    pub packed: usize,
}

pub type ImportRow = (i64, fn(&Given) -> bool);

/// What makes an import.
#[derive(Clone, Copy)]
pub struct Importing {
    pub rows: &'static [ImportRow],
    pub header: fn(&[u8]) -> Option<(Size, &[u8])>,
    pub layout: fn(u8, u8) -> Layout,
    /// A code of a file's bytes.
    pub load: fn(&[u8]) -> u16,
    /// A last change of a card.
    pub card: fn(&mut Card),
}

pub const IMPORTING: Importing = Importing {
    rows: &IMPORT_ROWS,
    header: begun,
    layout,
    load,
    card: |_| {},
};

pub const IMPORT_ROWS: [ImportRow; 6] = [
    ITEM_AND_PRIMARIES,
    HEADER,
    POINTS,
    ROOM_FOR_A_CARD,
    ROOM_FOR_POINTS,
    CODES,
];

pub const ITEM_AND_PRIMARIES: ImportRow = (9, |given| {
    given.item == 0 || ![1, 2, 3, 4].contains(&given.primaries)
});
pub const HEADER: ImportRow = (18, |given| given.size.is_none());
pub const POINTS: ImportRow = (13, |given| {
    given
        .size
        .is_some_and(|size| given.points.len() != size.bytes())
});
pub const ROOM_FOR_A_CARD: ImportRow = (13, |given| given.size.is_some() && given.card != SIZE);
pub const ROOM_FOR_POINTS: ImportRow = (13, |given| {
    let needed = given
        .size
        .map(|size| size.points() * bytes_a_point(given.layout));
    needed.is_some_and(|needed| given.packed != needed)
});
/// At 8 bits there is no byte above the largest.
pub const CODES: ImportRow = (18, |given| match given.size {
    Some(size) if size.depth > 8 => {
        let (codes, _) = given.points.as_chunks();
        codes.iter().any(|&[high, _]| high >> (size.depth - 8) != 0)
    }
    _ => false,
});

/// Imports with the given pieces.
pub fn imported(
    ppm: &mut Guarded<u8>,
    item: u64,
    primaries: u8,
    made: &mut Imported,
    pieces: &Importing,
) -> i64 {
    let begun = (pieces.header)(ppm.elements());
    let depth = begun.map_or(8, |(size, _)| size.depth);
    let given = Given {
        item,
        primaries,
        size: begun.map(|(size, _)| size),
        points: begun.map_or(&[], |(_, points)| points),
        layout: (pieces.layout)(depth, primaries),
        card: made.card.length(),
        packed: made.packed.length(),
    };
    let row = pieces.rows.iter().find(|(_, applies)| applies(&given));
    if let Some((number, _)) = row {
        return -number;
    }
    let size = given.size.expect("a header that is not refused");
    let each = if depth == 8 { 1 } else { 2 };
    let codes: Vec<u16> = given.points.chunks(each).map(pieces.load).collect();
    let mut card = card_of(size, given.layout, item);
    (pieces.card)(&mut card);
    made.card.output().copy_from_slice(&card);
    made.packed.output().fill(0);
    store_fields(given.layout, &codes, made.packed.output(), place);
    size.points() as i64
}

/// The length that is told with the given pieces.
pub fn import_told(ppm: &mut Guarded<u8>, pieces: &Importing) -> i64 {
    match (pieces.header)(ppm.elements()) {
        Some((size, _)) => {
            let layout = (pieces.layout)(size.depth, 1);
            (size.points() * bytes_a_point(layout)) as i64
        }
        None => -18,
    }
}

/// Full-range R'G'B' without gaps.
pub fn layout(depth: u8, primaries: u8) -> Layout {
    let bytes = match depth {
        8 => 3,
        10 => 4,
        _ => 5,
    };
    [1, primaries, FULL, depth, bytes, 0, depth, 2 * depth, 0]
}

/// A closed card, byte by byte.
fn card_of(size: Size, layout: Layout, item: u64) -> Card {
    let [model, primaries, range, depth, bytes, first, second, third, sampling] = layout;
    let least = if depth == 12 { 2 } else { 1 };
    let mut card = [0; SIZE];
    card[..8].copy_from_slice(&[least, 2, model, primaries, range, depth, bytes, sampling]);
    card[8..12].copy_from_slice(&[first, second, third, 0]);
    let [width, height] = [size.width, size.height];
    card[12..16].copy_from_slice(&[
        width as u8,
        (width >> 8) as u8,
        height as u8,
        (height >> 8) as u8,
    ]);
    for (place, byte) in card[16..24].iter_mut().enumerate() {
        *byte = (item >> (8 * place)) as u8;
    }
    card
}

pub fn load(bytes: &[u8]) -> u16 {
    match *bytes {
        [high, low] => u16::from(high) * 256 + u16::from(low),
        [byte, ..] => byte.into(),
        [] => 0,
    }
}

/// The header of a file and what follows it.
pub fn begun(ppm: &[u8]) -> Option<(Size, &[u8])> {
    let rest = ppm.strip_prefix(b"P6\n")?;
    let (width, rest) = digits(rest, b' ')?;
    let (height, rest) = digits(rest, b'\n')?;
    let (largest, points) = digits(rest, b'\n')?;
    let depth = match largest {
        255 => 8,
        1023 => 10,
        4095 => 12,
        _ => return None,
    };
    let within = width <= 4096 && height <= 4096;
    let size = Size {
        width,
        height,
        depth,
    };
    within.then_some((size, points))
}

/// A number of one to four digits, the first of them not 0, before a byte.
fn digits(text: &[u8], end: u8) -> Option<(u16, &[u8])> {
    let place = text.iter().take(5).position(|&byte| byte == end)?;
    let (digits, rest) = text.split_at(place);
    let mut number = 0;
    for &digit in digits {
        if !digit.is_ascii_digit() || (number == 0 && digit == b'0') {
            return None;
        }
        number = 10 * number + u16::from(digit - b'0');
    }
    (number != 0).then_some((number, &rest[1..]))
}
