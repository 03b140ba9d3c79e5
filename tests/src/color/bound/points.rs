//! Every row, depth and pair of ranges, with the points where clamping or rounding could go
//! wrong, and random ones.

use std::ops::RangeInclusive;

use reference::bound::codes;

use crate::library::Library;
use crate::random::Random;
use crate::tally::{Flow, Tally};

use super::super::{inputs, DEPTHS, MOST_POINTS, PRIMARIES};
use super::{stays, PAIRS};

/// Random points of each way.
const RANDOM_POINTS: usize = 2 * MOST_POINTS;

pub fn within(library: &Library, tally: &mut Tally) -> Flow {
    let mut random = Random::new();
    for depth in DEPTHS {
        for [first, second] in PAIRS {
            let codes = codes(first, depth).expect("codes of the bound");
            let mut points = [corners(&codes), edges(&codes, depth), greys(&codes)].concat();
            let chosen = points.len();
            for primaries in PRIMARIES {
                points.truncate(chosen);
                points.extend(random_codes(&codes, &mut random));
                let way = [primaries, depth, first, second];
                for line in points.chunks(3 * MOST_POINTS) {
                    stays(library, tally, way, line, &mut 0)?;
                }
            }
        }
    }
    Flow::Continue(())
}

/// All threes of the ends, the middle, and neighbours of these.
fn corners(codes: &RangeInclusive<u16>) -> Vec<u16> {
    let (low, high) = (*codes.start(), *codes.end());
    let middle = (low + high) / 2;
    inputs::triples(&[
        low,
        low + 1,
        low + 2,
        middle,
        middle + 1,
        high - 2,
        high - 1,
        high,
    ])
}

/// One channel goes from end to end, in as many steps as at 8 bits, where the others are at
/// an end.
fn edges(codes: &RangeInclusive<u16>, depth: u8) -> Vec<u16> {
    let (low, high) = (*codes.start(), *codes.end());
    let steps: Vec<u16> = codes.clone().step_by(1 << (depth - 8)).collect();
    let ends = [low, high];
    [
        inputs::all_of([&steps, &ends, &ends]),
        inputs::all_of([&ends, &steps, &ends]),
        inputs::all_of([&ends, &ends, &steps]),
    ]
    .concat()
}

fn greys(codes: &RangeInclusive<u16>) -> Vec<u16> {
    codes.clone().flat_map(|code| [code; 3]).collect()
}

fn random_codes(codes: &RangeInclusive<u16>, random: &mut Random) -> Vec<u16> {
    (0..3 * RANDOM_POINTS)
        .map(|_| codes.start() + random.below(codes.len()) as u16)
        .collect()
}
