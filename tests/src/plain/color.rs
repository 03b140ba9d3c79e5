//! Colors in whole numbers: numerators over one denominator, and for G' the
//! formula into which document 003 has put those for R' and B'.

use reference::quantization::{Range, Scale};
use reference::refusal::Refusal;

use crate::clamped::Clamped;
use crate::guarded::Guarded;
use crate::library::{Conversion, Direction, CUTS};
use crate::quantization::{refused, scale_of};

use super::quantization::{all, ends, line, outside, Count, Cut, Ends, Line};

/// One, in ten-thousandths.
pub const ONE: i128 = 10_000;

/// A numerator over a denominator above zero.
pub type Ratio = (i128, i128);

/// Three values from three others, by KR, KG and KB in ten-thousandths.
pub type Formulas = fn([i128; 3], [Ratio; 3]) -> [Ratio; 3];

/// What makes a conversion. Each piece can be exchanged for a wrong one.
#[derive(Clone, Copy)]
pub struct Pieces {
    pub weights: fn(u8) -> [i128; 3],
    pub line: Line,
    pub ycbcr: Formulas,
    pub rgb: Formulas,
    pub round: fn(Scale, Ratio) -> i128,
    pub ends: Ends,
    pub cut: Cut,
    pub count: Count,
}

pub const PIECES: Pieces = Pieces {
    weights,
    line,
    ycbcr,
    rgb,
    round: rounded,
    ends,
    cut: outside,
    count: all,
};

/// Converts with the given pieces.
pub fn converted(
    direction: Direction,
    conversion: Conversion,
    codes: &mut Guarded<u16>,
    out: &mut Clamped<u16>,
    pieces: Pieces,
) -> i64 {
    clamped(direction, conversion, codes, out, pieces, |point| {
        let numbers = numbers(direction, conversion, pieces, point);
        let made = made_scales(direction, conversion);
        [0, 1, 2].map(|channel| (pieces.round)(made[channel], numbers[channel]))
    })
}

/// The numbers of the channels made, before rounding.
pub fn numbers(
    direction: Direction,
    conversion: Conversion,
    pieces: Pieces,
    point: [u16; 3],
) -> [Ratio; 3] {
    let values = values(direction, conversion, pieces.line, point);
    let [primaries, ..] = conversion;
    let weights = (pieces.weights)(primaries);
    let values = match direction {
        Direction::RgbToYcbcr => (pieces.ycbcr)(weights, values),
        Direction::YcbcrToRgb => (pieces.rgb)(weights, values),
    };
    let made = made_scales(direction, conversion);
    [0, 1, 2].map(|channel| on_line((pieces.line)(made[channel]), values[channel]))
}

/// The whole numbers of each point are the rule's; refusals and clamping are right.
pub fn pointwise(
    direction: Direction,
    conversion: Conversion,
    codes: &mut Guarded<u16>,
    out: &mut Clamped<u16>,
    rule: impl Fn([u16; 3]) -> [i128; 3],
) -> i64 {
    clamped(direction, conversion, codes, out, PIECES, rule)
}

/// The same with the ends and cuts of other pieces.
fn clamped(
    direction: Direction,
    conversion: Conversion,
    codes: &mut Guarded<u16>,
    out: &mut Clamped<u16>,
    pieces: Pieces,
    rule: impl Fn([u16; 3]) -> [i128; 3],
) -> i64 {
    if let Some(refusal) = refusal(conversion, codes.elements(), out.length()) {
        return refused(refusal);
    }
    let scales = made_scales(direction, conversion);
    let (points, _) = codes.elements().as_chunks();
    let mut cut = Vec::new();
    for (&point, made) in points.iter().zip(out.output().chunks_mut(3)) {
        let numbers = rule(point);
        for channel in 0..3 {
            let (scale, number) = (scales[channel], numbers[channel]);
            let ends = (pieces.ends)(scale);
            let [least, greatest] = ends.map(i128::from);
            made[channel] = number.clamp(least, greatest) as u16;
            cut.push((pieces.cut)(scale, number, ends));
        }
    }
    out.cuts[CUTS] = (pieces.count)(&cut) as u32;
    points.len() as i64
}

fn refusal(conversion: Conversion, codes: &[u16], out_length: usize) -> Option<Refusal> {
    let [primaries, depth, range_in, range_out] = conversion;
    let inside = [1, 2, 3, 4].contains(&primaries)
        && [8, 10, 12].contains(&depth)
        && [1, 2, 3].contains(&range_in)
        && [1, 2, 3].contains(&range_out);
    let points = codes.len() / 3;
    if !inside {
        Some(Refusal::Outside)
    } else if codes.len() != 3 * points || points > 4096 || out_length != codes.len() {
        Some(Refusal::Length)
    } else if codes.iter().any(|code| code >> depth != 0) {
        Some(Refusal::CodeTooHigh)
    } else {
        None
    }
}

/// KR, KG and KB of a row.
pub fn weights(primaries: u8) -> [i128; 3] {
    match primaries {
        1 => [2126, 7152, 722],
        4 => [2627, 6780, 593],
        _ => [2990, 5870, 1140],
    }
}

/// The values of the given codes.
pub fn values(
    direction: Direction,
    conversion: Conversion,
    line: Line,
    point: [u16; 3],
) -> [Ratio; 3] {
    let given = given_scales(direction, conversion);
    [0, 1, 2].map(|channel| {
        let (step, base) = line(given[channel]);
        (i128::from(point[channel]) - i128::from(base), step.into())
    })
}

/// R', G' and B' have one denominator.
pub fn ycbcr([kr, kg, kb]: [i128; 3], [r, g, b]: [Ratio; 3]) -> [Ratio; 3] {
    let span = r.1;
    let y = kr * r.0 + kg * g.0 + kb * b.0;
    [
        (y, ONE * span),
        (ONE * b.0 - y, 2 * (ONE - kb) * span),
        (ONE * r.0 - y, 2 * (ONE - kr) * span),
    ]
}

/// Cb and Cr have one denominator.
pub fn rgb([kr, kg, kb]: [i128; 3], [y, cb, cr]: [Ratio; 3]) -> [Ratio; 3] {
    // All three over the product of the two spans.
    let spans = y.1 * cb.1;
    let [y, cb, cr] = [y.0 * cb.1, cb.0 * y.1, cr.0 * y.1];
    [
        (ONE * y + 2 * (ONE - kr) * cr, ONE * spans),
        (
            ONE * kg * y - 2 * (kr * (ONE - kr) * cr + kb * (ONE - kb) * cb),
            ONE * kg * spans,
        ),
        (ONE * y + 2 * (ONE - kb) * cb, ONE * spans),
    ]
}

/// The number on a line, before rounding.
pub fn on_line((step, base): (i32, i32), (p, q): Ratio) -> Ratio {
    (p * i128::from(step) + q * i128::from(base), q)
}

/// As the range rounds: full range a half away from zero, the others up.
pub fn rounded(scale: Scale, (p, q): Ratio) -> i128 {
    match scale.range {
        Range::Full if p < 0 => -half_up((-p, q)),
        _ => half_up((p, q)),
    }
}

pub fn half_up((p, q): Ratio) -> i128 {
    (2 * p + q).div_euclid(2 * q)
}

/// The scales of the given channels.
pub fn given_scales(direction: Direction, conversion: Conversion) -> [Scale; 3] {
    let [_, depth, range_in, _] = conversion;
    let model = match direction {
        Direction::RgbToYcbcr => 1,
        Direction::YcbcrToRgb => 2,
    };
    [0, 1, 2].map(|channel| scale_of([model, range_in, depth, channel]))
}

/// The scales of the channels that are made.
pub fn made_scales(direction: Direction, conversion: Conversion) -> [Scale; 3] {
    let [_, depth, _, range_out] = conversion;
    let model = match direction {
        Direction::RgbToYcbcr => 2,
        Direction::YcbcrToRgb => 1,
    };
    [0, 1, 2].map(|channel| scale_of([model, range_out, depth, channel]))
}
