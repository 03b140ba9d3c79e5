//! Pictures in plain Rust, of the same shape as the library: the card, the lengths and the
//! header are looked at once, and points go block by block through lines of codes. Full-range
//! R'G'B' of a byte each that lies as a file has it is copied.

use super::cards::{self, Facts, BYTES, OPEN};
use super::colors;
use super::layout::{packed_bytes, Numbers};
use super::lines;
use super::refusal::{LENGTH, NOT_OPEN, OUTSIDE, PICTURE};

/// Points of a block.
const BLOCK: usize = 128;

const FULL: u8 = 2;
const LEGACY: u8 = 3;

/// Room for the longest header: P6, two sides of four digits, and a largest code of four.
const HEADER: usize = 18;

pub fn export(card: &[u8], edition: u8, packed: &[u8], out: &mut [u8]) -> i64 {
    let facts = match exported(card, edition) {
        Ok(facts) => facts,
        Err(refusal) => return refusal,
    };
    let points = points(facts.width, facts.height);
    let (header, length) = header(&facts);
    let [_, _, _, depth, ..] = facts.layout;
    let fits = packed.len() == packed_bytes(facts.layout, points)
        && out.len() == length + 3 * points * code_bytes(depth);
    if !fits {
        return LENGTH;
    }
    let (start, codes) = out.split_at_mut(length);
    start.copy_from_slice(&header[..length]);
    match facts.layout {
        [1, _, FULL, 8, 3, 0, 8, 16, _] => codes.copy_from_slice(packed),
        _ => blocks(facts.layout, packed, codes),
    }
    points as i64
}

pub fn export_len(card: &[u8], edition: u8) -> i64 {
    match exported(card, edition) {
        Ok(facts) => {
            let [_, _, _, depth, ..] = facts.layout;
            let codes = 3 * points(facts.width, facts.height) * code_bytes(depth);
            (header(&facts).1 + codes) as i64
        }
        Err(refusal) => refusal,
    }
}

pub fn import(ppm: &[u8], item: u64, primaries: u8, card: &mut [u8], packed: &mut [u8]) -> i64 {
    if item == 0 || !matches!(primaries, 1..=4) {
        return OUTSIDE;
    }
    let Some((width, height, depth, codes)) = begun(ppm) else {
        return PICTURE;
    };
    let points = points(width, height);
    let bytes = (3 * depth).div_ceil(8);
    let fits = codes.len() == 3 * points * code_bytes(depth)
        && card.len() == BYTES
        && packed.len() == points * usize::from(bytes);
    if !fits {
        return LENGTH;
    }
    if depth > 8 {
        // The high bytes alone, without an early exit.
        let high = codes.chunks_exact(2).fold(0, |bits, code| bits | code[0]);
        if high >> (depth - 8) != 0 {
            return PICTURE;
        }
    }
    let least = if depth == 12 { 2 } else { 1 };
    card.fill(0);
    card[..8].copy_from_slice(&[least, 2, 1, primaries, FULL, depth, bytes, 0]);
    card[9..11].copy_from_slice(&[depth, 2 * depth]);
    card[12..14].copy_from_slice(&width.to_le_bytes());
    card[14..16].copy_from_slice(&height.to_le_bytes());
    card[16..24].copy_from_slice(&item.to_le_bytes());
    match depth {
        8 => packed.copy_from_slice(codes),
        10 => pack::<4>(codes, depth, packed),
        _ => pack::<5>(codes, depth, packed),
    }
    points as i64
}

pub fn import_len(ppm: &[u8]) -> i64 {
    match begun(ppm) {
        Some((width, height, depth, _)) => {
            let bytes = usize::from((3 * depth).div_ceil(8));
            (points(width, height) * bytes) as i64
        }
        None => PICTURE,
    }
}

fn exported(card: &[u8], edition: u8) -> Result<Facts, i64> {
    let facts = cards::shown(card, edition)?;
    let [_, _, range, ..] = facts.layout;
    match (range, facts.access) {
        (LEGACY, _) => Err(OUTSIDE),
        (_, OPEN) => Ok(facts),
        _ => Err(NOT_OPEN),
    }
}

fn points(width: u16, height: u16) -> usize {
    usize::from(width) * usize::from(height)
}

/// The bytes of a code in a file.
fn code_bytes(depth: u8) -> usize {
    if depth == 8 {
        1
    } else {
        2
    }
}

/// The header's bytes, and how many they are.
fn header(facts: &Facts) -> ([u8; HEADER], usize) {
    let [_, _, _, depth, ..] = facts.layout;
    let mut header = *b"P6\n               ";
    let mut length = 3;
    for (number, end) in [
        (facts.width, b' '),
        (facts.height, b'\n'),
        ((1 << depth) - 1, b'\n'),
    ] {
        for power in [1000, 100, 10, 1] {
            if number >= power {
                header[length] = b'0' + (number / power % 10) as u8;
                length += 1;
            }
        }
        header[length] = end;
        length += 1;
    }
    (header, length)
}

/// Width, height, depth, and what follows the header.
fn begun(ppm: &[u8]) -> Option<(u16, u16, u8, &[u8])> {
    let rest = ppm.strip_prefix(b"P6\n")?;
    let (width, rest) = number(rest, b' ')?;
    let (height, rest) = number(rest, b'\n')?;
    let (largest, codes) = number(rest, b'\n')?;
    let depth = match largest {
        255 => 8,
        1023 => 10,
        4095 => 12,
        _ => return None,
    };
    (width <= 4096 && height <= 4096).then_some((width, height, depth, codes))
}

/// A number of one to four digits that does not begin with 0, before its end.
fn number(text: &[u8], end: u8) -> Option<(u16, &[u8])> {
    let mut number = 0;
    for (place, &byte) in text.iter().enumerate().take(5) {
        match byte {
            b'1'..=b'9' if place < 4 => number = 10 * number + u16::from(byte - b'0'),
            b'0' if 0 < place && place < 4 => number *= 10,
            _ if byte == end && place > 0 => return Some((number, &text[place + 1..])),
            _ => return None,
        }
    }
    None
}

/// All points of a picture, as a file has them.
fn blocks(layout: Numbers, packed: &[u8], out: &mut [u8]) {
    let [model, primaries, range, depth, ..] = layout;
    let given = packed_bytes(layout, BLOCK);
    let made = 3 * BLOCK * code_bytes(depth);
    for (packed, out) in packed.chunks(given).zip(out.chunks_mut(made)) {
        let count = out.len() / code_bytes(depth);
        let (mut codes, mut converted) = ([0; 3 * BLOCK], [0; 3 * BLOCK]);
        let codes = &mut codes[..count];
        lines::unpack_line(layout, packed, codes);
        let codes: &[u16] = match (model, range) {
            (1, FULL) => codes,
            (1, _) => {
                match depth {
                    8 => narrow::<8>(codes),
                    10 => narrow::<10>(codes),
                    _ => narrow::<12>(codes),
                }
                codes
            }
            _ => {
                let converted = &mut converted[..count];
                let conversion = [primaries, depth, range, FULL];
                colors::ycbcr_to_rgb(conversion, codes, converted, &mut 0);
                converted
            }
        };
        store(codes, depth, out);
    }
}

/// From narrow to full range: (c - 16 s)/(219 s) of the largest code, rounded.
fn narrow<const DEPTH: u32>(codes: &mut [u16]) {
    let (s, largest) = (1 << (DEPTH - 8), (1 << DEPTH) - 1);
    for code in codes {
        let above_black = u32::from(*code).saturating_sub(16 * s);
        let rounded = (2 * above_black * largest + 219 * s) / (438 * s);
        *code = rounded.min(largest) as u16;
    }
}

fn store(codes: &[u16], depth: u8, out: &mut [u8]) {
    match depth {
        8 => {
            for (byte, code) in out.iter_mut().zip(codes) {
                *byte = *code as u8;
            }
        }
        _ => {
            for (bytes, code) in out.chunks_exact_mut(2).zip(codes) {
                bytes.copy_from_slice(&code.to_be_bytes());
            }
        }
    }
}

/// Points of so many bytes from codes of two.
fn pack<const POINT: usize>(codes: &[u8], depth: u8, packed: &mut [u8]) {
    for (six, point) in codes.chunks_exact(6).zip(packed.chunks_exact_mut(POINT)) {
        let code = |place: usize| u64::from(six[place]) << 8 | u64::from(six[place + 1]);
        let number = code(0) | code(2) << depth | code(4) << (2 * depth);
        point.copy_from_slice(&number.to_le_bytes()[..POINT]);
    }
}
