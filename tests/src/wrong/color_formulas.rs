//! Mistakes in the formulas of one direction.

use crate::plain::color::{
    half_up, made_scales, on_line, pointwise, rgb, rounded, values, weights, ycbcr, Pieces, Ratio,
    ONE, PIECES,
};
use crate::plain::quantization::line;

use super::converts::{by, to_rgb, to_ycbcr};
use super::ends::brightness_alone;
use super::Wrong;

pub const WRONG: &[Wrong] = &[
    // To Y'CbCr.
    to_ycbcr(
        "2(1-KR) for 2(1-KB)",
        by!(Pieces {
            ycbcr: |[kr, kg, kb], values| {
                let [y, cb, cr] = ycbcr([kr, kg, kb], values);
                [y, (cb.0, cr.1), cr]
            },
            ..PIECES
        }),
    ),
    to_ycbcr(
        "2(1-KB) for 2(1-KR)",
        by!(Pieces {
            ycbcr: |weights, values| {
                let [y, cb, cr] = ycbcr(weights, values);
                [y, cb, (cr.0, cb.1)]
            },
            ..PIECES
        }),
    ),
    to_ycbcr(
        "differences not halved",
        by!(Pieces {
            ycbcr: |weights, values| {
                let [y, cb, cr] = ycbcr(weights, values);
                [y, (2 * cb.0, cb.1), (2 * cr.0, cr.1)]
            },
            ..PIECES
        }),
    ),
    to_ycbcr(
        "Y' - B' for B' - Y'",
        by!(Pieces {
            ycbcr: |weights, values| {
                let [y, cb, cr] = ycbcr(weights, values);
                [y, (-cb.0, cb.1), cr]
            },
            ..PIECES
        }),
    ),
    to_ycbcr(
        "Y' clamped before the differences",
        by!(Pieces {
            ycbcr: |weights, values| {
                let [y, ..] = ycbcr(weights, values);
                let clamped = clamped(y);
                let [cb, cr] = differences(weights, values, clamped);
                [y, cb, cr]
            },
            ..PIECES
        }),
    ),
    to_ycbcr(
        "Y' rounded to its code before the differences",
        |direction, conversion, codes, out| {
            pointwise(direction, conversion, codes, out, |point| {
                let weights = weights(conversion[0]);
                let values = values(direction, conversion, line, point);
                let [brightness, difference, _] = made_scales(direction, conversion).map(line);
                let [y, ..] = ycbcr(weights, values);
                let code = half_up(on_line(brightness, y));
                let (step, base) = brightness;
                let rounded = (code - i128::from(base), i128::from(step));
                let [cb, cr] = differences(weights, values, rounded);
                [
                    code,
                    half_up(on_line(difference, cb)),
                    half_up(on_line(difference, cr)),
                ]
            })
        },
    ),
    to_ycbcr(
        "the misprint of document 003",
        by!(Pieces {
            ycbcr: |[kr, kg, kb], values| {
                let [y, cb, cr] = ycbcr([kr, kg, kb], values);
                let [_, g, _] = values;
                match kr {
                    // In BT.709's matrix G' is printed without its minus.
                    2126 => [y, cb, (cr.0 + 2 * kg * g.0, cr.1)],
                    _ => [y, cb, cr],
                }
            },
            ..PIECES
        }),
    ),
    to_ycbcr(
        "narrow brightness alone clamped",
        by!(Pieces {
            ends: brightness_alone,
            ..PIECES
        }),
    ),
    // To R'G'B'.
    to_rgb(
        "2(1-KB) for 2(1-KR), back",
        by!(Pieces {
            rgb: |[kr, kg, kb], values| {
                let [_, _, b] = rgb([kr, kg, kb], values);
                let [r, g, _] = rgb([kb, kg, kr], values);
                [r, g, b]
            },
            ..PIECES
        }),
    ),
    to_rgb(
        "1-KR for 2(1-KR), back",
        by!(Pieces {
            rgb: |weights, [y, cb, cr]| {
                let [_, g, b] = rgb(weights, [y, cb, cr]);
                let [r, ..] = rgb(weights, [y, (2 * cb.0, 2 * cb.1), (cr.0, 2 * cr.1)]);
                [r, g, b]
            },
            ..PIECES
        }),
    ),
    to_rgb(
        "R' and B' clamped before G'",
        by!(Pieces {
            rgb: |weights, values| {
                let [r, _, b] = rgb(weights, values);
                let g = green(weights, values[0], [clamped(r), clamped(b)]);
                [r, g, b]
            },
            ..PIECES
        }),
    ),
    to_rgb(
        "R' and B' rounded to their codes before G'",
        |direction, conversion, codes, out| {
            pointwise(direction, conversion, codes, out, |point| {
                let weights = weights(conversion[0]);
                let values = values(direction, conversion, line, point);
                let [made, ..] = made_scales(direction, conversion);
                let (step, base) = line(made);
                let number = |value| rounded(made, on_line((step, base), value));
                let [r, _, b] = rgb(weights, values);
                let [red, blue] = [r, b].map(number);
                let codes = [red, blue].map(|code| (code - i128::from(base), i128::from(step)));
                [red, number(green(weights, values[0], codes)), blue]
            })
        },
    ),
    to_rgb(
        "G' not divided by KG",
        by!(Pieces {
            rgb: |[kr, kg, kb], values| {
                let [r, g, b] = rgb([kr, kg, kb], values);
                [r, (g.0, g.1 / kg * ONE), b]
            },
            ..PIECES
        }),
    ),
    to_rgb(
        "G' without Cb",
        by!(Pieces {
            rgb: |weights, [y, cb, cr]| {
                let [r, _, b] = rgb(weights, [y, cb, cr]);
                let [_, g, _] = rgb(weights, [y, (0, cb.1), cr]);
                [r, g, b]
            },
            ..PIECES
        }),
    ),
];

/// Cb and Cr with another Y' than that of R'G'B'.
fn differences([kr, _, kb]: [i128; 3], [r, _, b]: [Ratio; 3], y: Ratio) -> [Ratio; 2] {
    [(b, kb), (r, kr)].map(|(value, weight)| {
        let (p, q) = minus(value, y);
        (ONE * p, 2 * (ONE - weight) * q)
    })
}

/// G' with other R' and B' than those of Y'CbCr.
fn green([kr, kg, kb]: [i128; 3], y: Ratio, [r, b]: [Ratio; 2]) -> Ratio {
    let without_red = minus((ONE * y.0, y.1), (kr * r.0, r.1));
    let (p, q) = minus(without_red, (kb * b.0, b.1));
    (p, kg * q)
}

fn minus(one: Ratio, other: Ratio) -> Ratio {
    (one.0 * other.1 - other.0 * one.1, one.1 * other.1)
}

/// Brought to 0 .. 1.
fn clamped((p, q): Ratio) -> Ratio {
    (p.clamp(0, q), q)
}
