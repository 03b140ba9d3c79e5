//! The lines that are measured: smooth ones, as in a picture, and random ones.

use std::f32::consts::TAU;

use crate::plain::colors;
use crate::plain::layout::{packed_bytes, Numbers};
use crate::plain::lines;
use crate::random::Random;

pub const POINTS: usize = 4096;

/// One line in its three forms.
pub struct Forms {
    pub values: Vec<f32>,
    pub codes: Vec<u16>,
    pub packed: Vec<u8>,
}

/// Slow waves, a little beyond the range here and there, as Y'CbCr values: the
/// first of three from 0 to 1, the others around 0. Codes and packed bytes are
/// theirs.
pub fn smooth(layout: Numbers) -> Forms {
    let values: Vec<f32> = (0..POINTS)
        .flat_map(|point| {
            let turn = TAU * point as f32 / POINTS as f32;
            [
                0.5 + 0.51 * (3.0 * turn).sin(),
                0.4 * (5.0 * turn).cos(),
                0.4 * (7.0 * turn).sin(),
            ]
        })
        .collect();
    let mut packed = vec![0; packed_length(layout)];
    lines::encode_line(layout, &values, &mut packed, &mut 0);
    let mut codes = vec![0; 3 * POINTS];
    lines::unpack_line(layout, &packed, &mut codes);
    Forms {
        values,
        codes,
        packed,
    }
}

/// R'G'B' codes of slow waves, a little beyond the range here and there, and the
/// Y'CbCr codes that they are in the same range.
pub fn smooth_colors(primaries: u8, depth: u8, range: u8) -> [Vec<u16>; 2] {
    let s = 1 << (depth - 8);
    let [lower, upper] = match range {
        1 => [16 * s, 235 * s],
        2 => [0, (1 << depth) - 1],
        _ => [0, 1 << depth],
    };
    let greatest = ((1 << depth) - 1) as f32;
    let rgb: Vec<u16> = (0..POINTS)
        .flat_map(|point| {
            let turn = TAU * point as f32 / POINTS as f32;
            [
                0.5 + 0.51 * (3.0 * turn).sin(),
                0.5 + 0.51 * (5.0 * turn).cos(),
                0.5 + 0.51 * (7.0 * turn).sin(),
            ]
        })
        .map(|value| {
            let code = lower as f32 + value * (upper - lower) as f32;
            code.round().clamp(0.0, greatest) as u16
        })
        .collect();
    let mut ycbcr = vec![0; rgb.len()];
    colors::rgb_to_ycbcr([primaries, depth, range, range], &rgb, &mut ycbcr, &mut 0);
    [rgb, ycbcr]
}

/// Any codes of a depth.
pub fn random_colors(depth: u8) -> Vec<u16> {
    let mut random = Random::new();
    (0..3 * POINTS).map(|_| random.code(depth)).collect()
}

/// Floats of either sign from 2^-15 to 2, any codes, any bytes.
pub fn random(layout: Numbers) -> Forms {
    let [_, _, _, depth, ..] = layout;
    let mut random = Random::new();
    Forms {
        values: (0..3 * POINTS).map(|_| random.value()).collect(),
        codes: (0..3 * POINTS).map(|_| random.code(depth)).collect(),
        packed: (0..packed_length(layout))
            .map(|_| random.next() as u8)
            .collect(),
    }
}

pub fn packed_length(layout: Numbers) -> usize {
    packed_bytes(layout, POINTS)
}
