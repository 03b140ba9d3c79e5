//! Mistakes in reckoning colors: rounded matrices, floats and doubles.

use crate::clamped::Clamped;
use crate::color::expected_convert;
use crate::guarded::Guarded;
use crate::library::{Conversion, Direction};
use crate::plain::color::{made_scales, pointwise, values, weights, ONE};
use crate::plain::quantization::line;

use super::converts::converts;
use super::Wrong;

pub const WRONG: &[Wrong] = PAIRS.as_flattened();

const PAIRS: &[[Wrong; 2]] = &[
    converts(
        "matrices of six digits",
        |direction, conversion, codes, out| {
            let matrix = matrix(direction, weights(conversion[0])).map(six_digits);
            by_matrix(direction, conversion, codes, out, matrix)
        },
    ),
    converts(
        "matrices in doubles",
        |direction, conversion, codes, out| {
            let matrix = matrix(direction, weights(conversion[0]));
            by_matrix(direction, conversion, codes, out, matrix)
        },
    ),
    converts("by way of floats", |direction, conversion, codes, out| {
        pointwise(direction, conversion, codes, out, |point| {
            let matrix = matrix(direction, weights(conversion[0]));
            let values =
                values(direction, conversion, line, point).map(|(p, q)| p as f32 / q as f32);
            let made = made_scales(direction, conversion).map(line);
            [0, 1, 2].map(|channel| {
                let [first, second, third] = matrix[channel].map(|entry| entry as f32);
                let value = first * values[0] + second * values[1] + third * values[2];
                let (step, base) = made[channel];
                (value * step as f32 + base as f32 + 0.5).floor() as i128
            })
        })
    }),
    converts(
        "one triple of one conversion one off",
        |direction, conversion, codes, out| {
            let count = expected_convert(direction, conversion, codes, out);
            if count > 0 && conversion == [1, 8, 1, 3] {
                let points = codes.elements().chunks(3).zip(out.output().chunks_mut(3));
                for (given, made) in points {
                    if given == [120, 135, 150] {
                        made[1] += 1;
                    }
                }
            }
            count
        },
    ),
];

/// The matrix of a direction, in doubles.
fn matrix(direction: Direction, weights: [i128; 3]) -> [[f64; 3]; 3] {
    let [kr, kg, kb] = weights.map(|weight| weight as f64 / ONE as f64);
    let [red, blue] = [2.0 * (1.0 - kr), 2.0 * (1.0 - kb)];
    match direction {
        Direction::RgbToYcbcr => [
            [kr, kg, kb],
            [-kr / blue, -kg / blue, 0.5],
            [0.5, -kg / red, -kb / red],
        ],
        Direction::YcbcrToRgb => [
            [1.0, 0.0, red],
            [1.0, -kb * blue / kg, -kr * red / kg],
            [1.0, blue, 0.0],
        ],
    }
}

fn six_digits(row: [f64; 3]) -> [f64; 3] {
    row.map(|entry| (entry * 1e6).round() / 1e6)
}

/// Converts with a matrix in doubles.
fn by_matrix(
    direction: Direction,
    conversion: Conversion,
    codes: &mut Guarded<u16>,
    out: &mut Clamped<u16>,
    matrix: [[f64; 3]; 3],
) -> i64 {
    pointwise(direction, conversion, codes, out, |point| {
        let values = values(direction, conversion, line, point).map(|(p, q)| p as f64 / q as f64);
        let made = made_scales(direction, conversion).map(line);
        [0, 1, 2].map(|channel| {
            let [first, second, third] = matrix[channel];
            let value = first * values[0] + second * values[1] + third * values[2];
            let (step, base) = made[channel];
            (value * f64::from(step) + f64::from(base) + 0.5).floor() as i128
        })
    })
}
