//! Lines of codes between R'G'B' and Y'CbCr, smooth and random.

use super::label;
use crate::before::{Before, Both, LineBefore};
use crate::case::{Case, Line, LineJob};
use crate::inputs;
use crate::library::lines as library;
use crate::plain::colors::{self as plain, Conversion};

const DEPTHS: [u8; 3] = [8, 10, 12];

/// The ranges of R'G'B' and of Y'CbCr: both narrow, both full, the usual two, both
/// the older full one, and those of an early capture and its picture.
const RANGES: [[u8; 2]; 5] = [[1, 1], [2, 2], [2, 1], [3, 3], [2, 3]];

/// One of the two directions.
struct Direction<'a> {
    entry: &'static str,
    /// That of the given codes: 0 for R'G'B', 1 for Y'CbCr.
    side: usize,
    jobs: [LineJob<Conversion, u16, u16>; 2],
    before: &'a dyn Fn() -> Option<Both<LineBefore<Conversion, u16, u16>>>,
}

pub fn cases(before: Option<&Before>) -> Result<Vec<Case>, String> {
    let to_ycbcr = Direction {
        entry: "rgb_to_ycbcr",
        side: 0,
        jobs: [library::rgb_to_ycbcr, plain::rgb_to_ycbcr],
        before: &|| before?.rgb_to_ycbcr(),
    };
    let to_rgb = Direction {
        entry: "ycbcr_to_rgb",
        side: 1,
        jobs: [library::ycbcr_to_rgb, plain::ycbcr_to_rgb],
        before: &|| before?.ycbcr_to_rgb(),
    };
    let mut cases = Vec::new();
    for ranges in RANGES {
        for depth in DEPTHS {
            add(&mut cases, &to_ycbcr, ranges, depth)?;
        }
    }
    for [rgb, ycbcr] in RANGES {
        for depth in DEPTHS {
            add(&mut cases, &to_rgb, [ycbcr, rgb], depth)?;
        }
    }
    Ok(cases)
}

/// BT.709 up to 10 bits and BT.2020 at 12, from one range to another.
fn add(
    cases: &mut Vec<Case>,
    direction: &Direction,
    [range_in, range_out]: [u8; 2],
    depth: u8,
) -> Result<(), String> {
    let primaries = if depth == 12 { 4 } else { 1 };
    let setting = format!("{} to {}", range_name(range_in), range_name(range_out));
    let smooth = inputs::smooth_colors(primaries, depth, range_in);
    let random = inputs::random_colors(depth);
    for (input, codes) in [("smooth", &smooth[direction.side]), ("random", &random)] {
        let line = Line {
            numbers: [primaries, depth, range_in, range_out],
            elements: codes.clone(),
            output: codes.len(),
            points_each: 1,
        };
        let mut refused = [line.clone(), line.clone(), line.clone()];
        refused[0].numbers = [0, depth, range_in, range_out];
        refused[1].output -= 1;
        refused[2].elements[codes.len() - 1] = u16::MAX;
        let label = label(direction.entry, &setting, &format!("{depth} bits, {input}"));
        let case = Case::line(label, line.clone(), &refused, direction.jobs)?;
        cases.push(case.beside_line(line, (direction.before)())?);
    }
    Ok(())
}

fn range_name(range: u8) -> &'static str {
    match range {
        1 => "narrow",
        2 => "full",
        _ => "older full",
    }
}
