//! Random lines.

use crate::layouts::{packed_length, DEPTH};
use crate::library::Layout;
use crate::quantization::floats::of_moderate_size;
use crate::random::Random;

/// A line's three forms, each of its own random points.
pub struct Line {
    pub packed: Vec<u8>,
    pub codes: Vec<u16>,
    pub values: Vec<f32>,
}

pub fn line(layout: Layout, points: usize, random: &mut Random) -> Line {
    Line {
        packed: packed(layout, points, random),
        codes: codes(layout, points, random),
        values: values(points, random),
    }
}

/// Any bytes at all, so unused bits are set too.
pub fn packed(layout: Layout, points: usize, random: &mut Random) -> Vec<u8> {
    (0..packed_length(layout, points))
        .map(|_| random.next() as u8)
        .collect()
}

/// Codes of the layout's depth. One in four is the greatest one.
pub fn codes(layout: Layout, points: usize, random: &mut Random) -> Vec<u16> {
    let greatest = greatest_code(layout);
    (0..3 * points)
        .map(|_| match random.next() {
            number if number.is_multiple_of(4) => greatest,
            number => (number >> 16) as u16 & greatest,
        })
        .collect()
}

/// Every code of the layout's depth in every channel, three a point: rising, falling,
/// rising.
pub fn every_code(layout: Layout) -> Vec<u16> {
    let greatest = greatest_code(layout);
    (0..=greatest)
        .flat_map(|code| [code, greatest - code, code])
        .collect()
}

pub fn values(points: usize, random: &mut Random) -> Vec<f32> {
    (0..3 * points).map(|_| value(random)).collect()
}

/// A float whose code is likely to be inside the range. One in four is any float
/// but a not-a-number.
pub fn value(random: &mut Random) -> f32 {
    let bits = random.next();
    let any = f32::from_bits(random.next());
    if bits.is_multiple_of(4) && !any.is_nan() {
        any
    } else {
        f32::from_bits(of_moderate_size(bits))
    }
}

pub fn greatest_code(layout: Layout) -> u16 {
    (1 << layout[DEPTH]) - 1
}
