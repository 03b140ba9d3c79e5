//! Mistakes in the codes that are exported.

use crate::layouts::is_grouped;
use crate::library::{Conversion, Direction};
use crate::plain::color::{self, Pieces, PIECES};
use crate::plain::lines::place;
use crate::plain::picture::{exported, store, Exporting, EXPORTING};

use super::super::Wrong;
use super::exports;

macro_rules! in_pieces {
    ($($mistake:literal: $piece:ident: $wrong:expr,)*) => {
        pub const WRONG: &[Wrong] = &[$(
            exports($mistake, |card, edition, packed, out| {
                let pieces = Exporting { $piece: $wrong, ..EXPORTING };
                exported(card, edition, packed, out, &pieces)
            }),
        )*];
    };
}

in_pieces! {
    // The bytes of a code.
    "the low byte first, exporting": store: |depth, code, file| {
        let [low, high] = code.to_le_bytes();
        file.push(low);
        if depth > 8 {
            file.push(high);
        }
    },
    "two bytes a code at 8 bits": store: |_, code, file| file.extend(code.to_be_bytes()),
    "one byte a code at every depth": store: |_, code, file| file.push(code as u8),
    "the high byte alone": store: |depth, code, file| file.push((code >> (depth - 8)) as u8),
    "codes at the top of 16 bits": store: |depth, code, file| match depth {
        8 => file.push(code as u8),
        _ => file.extend((code << (16 - depth)).to_be_bytes()),
    },
    "10 bits as 12": store: |depth, code, file| match depth {
        10 => store(12, code << 2, file),
        _ => store(depth, code, file),
    },
    "codes in the low 8 bits": store: |depth, code, file| store(depth, code & 255, file),
    // Narrow R'G'B'.
    "narrow R'G'B' as it is": narrow: |_, code| code,
    "narrow R'G'B' truncated": narrow: |depth, code| {
        numbers(depth, code, |p, q| p.div_euclid(q))
    },
    "narrow R'G'B' rounded up": narrow: |depth, code| {
        numbers(depth, code, |p, q| -(-p).div_euclid(q))
    },
    "narrow R'G'B' with a half rounded down": narrow: |depth, code| {
        numbers(depth, code, |p, q| (2 * p + q - 1).div_euclid(2 * q))
    },
    "narrow R'G'B' with a half rounded to even": narrow: |depth, code| {
        numbers(depth, code, |p, q| {
            let down = p.div_euclid(q);
            match (2 * p.rem_euclid(q)).cmp(&q) {
                std::cmp::Ordering::Less => down,
                std::cmp::Ordering::Equal => down + down % 2,
                std::cmp::Ordering::Greater => down + 1,
            }
        })
    },
    "narrow R'G'B' without a clamp at the bottom": narrow: |depth, code| {
        let (s, m) = ends(depth);
        let number = half_up((i64::from(code) - 16 * s) * m, 219 * s);
        (number.min(m) & m) as u16
    },
    "narrow R'G'B' without a clamp at the top": narrow: |depth, code| {
        let (s, m) = ends(depth);
        let number = half_up((i64::from(code) - 16 * s) * m, 219 * s);
        (number.max(0) & m) as u16
    },
    "narrow R'G'B' by the step of differences": narrow: |depth, code| {
        let (s, m) = ends(depth);
        half_up((i64::from(code) - 16 * s) * m, 224 * s).clamp(0, m) as u16
    },
    "narrow R'G'B' with black at 16 at every depth": narrow: |depth, code| {
        let (s, m) = ends(depth);
        half_up((i64::from(code) - 16) * m, 219 * s).clamp(0, m) as u16
    },
    "narrow R'G'B' with white at 2^n": narrow: |depth, code| {
        let (s, m) = ends(depth);
        half_up((i64::from(code) - 16 * s) * (m + 1), 219 * s).clamp(0, m) as u16
    },
    "narrow R'G'B' by its 8 highest bits": narrow: |depth, code| {
        let eight = numbers(8, code >> (depth - 8), |p, q| half_up(p, q));
        let (_, m) = ends(depth);
        (i64::from(eight) * m / 255) as u16
    },
    "narrow R'G'B' cut to narrow ends": narrow: |depth, code| {
        let (s, m) = ends(depth);
        half_up((i64::from(code) - 16 * s) * m, 219 * s).clamp(s, 255 * s - 1) as u16
    },
    // Y'CbCr.
    "Y'CbCr as it is": color: |_, point| point,
    "G' and B' exchanged": color: |conversion, point| {
        let [r, g, b] = right(conversion, point);
        [r, b, g]
    },
    "R' and B' exchanged": color: |conversion, point| {
        let [r, g, b] = right(conversion, point);
        [b, g, r]
    },
    "Cb and Cr exchanged, exporting": color: |conversion, [y, cb, cr]| {
        right(conversion, [y, cr, cb])
    },
    "Y' for all channels": color: |conversion, [y, _, _]| {
        let [_, depth, ..] = conversion;
        right(conversion, [y, 1 << (depth - 1), 1 << (depth - 1)])
    },
    "BT.709 for all primaries": color: |[_, depth, range, made], point| {
        right([1, depth, range, made], point)
    },
    "BT.601 for BT.2020": color: |[primaries, depth, range, made], point| {
        let primaries = if primaries == 4 { 2 } else { primaries };
        right([primaries, depth, range, made], point)
    },
    "BT.709 for BT.601 SMPTE": color: |[primaries, depth, range, made], point| {
        let primaries = if primaries == 3 { 1 } else { primaries };
        right([primaries, depth, range, made], point)
    },
    "narrow Y'CbCr as full": color: |[primaries, depth, _, made], point| {
        right([primaries, depth, 2, made], point)
    },
    "full Y'CbCr as narrow": color: |[primaries, depth, _, made], point| {
        right([primaries, depth, 1, made], point)
    },
    "Y'CbCr into narrow R'G'B'": color: |[primaries, depth, range, _], point| {
        right([primaries, depth, range, 1], point)
    },
    "Y'CbCr by the older full range": color: |[primaries, depth, range, made], point| {
        let range = if range == 2 { 3 } else { range };
        right([primaries, depth, range, made], point)
    },
    "Y'CbCr truncated": color: |conversion, point| {
        converted(conversion, point, PIECES, |number, most| number.clamp(0, most), |(p, q)| {
            p.div_euclid(q)
        })
    },
    "Y'CbCr without a clamp": color: |conversion, point| {
        converted(conversion, point, PIECES, |number, most| number & most, color::half_up)
    },
    "Y'CbCr by 8 bits alone": color: |[primaries, depth, range, made], point| {
        let eight = point.map(|code| code >> (depth - 8));
        right([primaries, 8, range, made], eight).map(|code| code << (depth - 8))
    },
    // Fields.
    "R'G'B' from the point's bytes in their order": place: |layout, code, bit| {
        match is_grouped(layout) {
            true => place(layout, code, bit),
            false => usize::from(layout[3]) * code + bit,
        }
    },
    "channels 0 and 2 exchanged, exporting": place: |layout, code, bit| {
        match is_grouped(layout) {
            true => place(layout, code, bit),
            false => place(layout, 2 - code, bit),
        }
    },
    "the first field for all": place: |layout, _, bit| place(layout, 0, bit),
}

/// s and m.
fn ends(depth: u8) -> (i64, i64) {
    (1 << (depth - 8), (1 << depth) - 1)
}

/// The code of a narrow one by a rounding of its fraction.
fn numbers(depth: u8, code: u16, round: fn(i64, i64) -> i64) -> u16 {
    let (s, m) = ends(depth);
    round((i64::from(code) - 16 * s) * m, 219 * s).clamp(0, m) as u16
}

fn half_up(p: i64, q: i64) -> i64 {
    (2 * p + q).div_euclid(2 * q)
}

fn right(conversion: Conversion, point: [u16; 3]) -> [u16; 3] {
    (EXPORTING.color)(conversion, point)
}

/// A point by another clamp and rounding.
fn converted(
    conversion: Conversion,
    point: [u16; 3],
    pieces: Pieces,
    clamp: fn(i128, i128) -> i128,
    round: fn(color::Ratio) -> i128,
) -> [u16; 3] {
    let [_, depth, ..] = conversion;
    let numbers = color::numbers(Direction::YcbcrToRgb, conversion, pieces, point);
    numbers.map(|number| clamp(round(number), (1 << depth) - 1) as u16)
}
