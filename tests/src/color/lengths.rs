//! Lengths of lines and outputs, right ones and wrong ones.

use crate::library::{Conversion, Direction, Library};
use crate::random::Random;
use crate::tally::{Flow, Tally};

use super::{compare, conversions, inputs, DEPTH, DEPTHS, MOST_POINTS};

pub fn short_lines(library: &Library, tally: &mut Tally) -> Flow {
    // Five shares no factor with the 72 of a depth.
    for conversion in DEPTHS.into_iter().flat_map(conversions).step_by(5) {
        for points in [0, 1, 2, 3, 7, 8] {
            compare_around(library, tally, conversion, points)?;
        }
    }
    Flow::Continue(())
}

pub fn long_lines(library: &Library, tally: &mut Tally) -> Flow {
    for conversion in some_conversions() {
        compare_around(library, tally, conversion, MOST_POINTS)?;
    }
    Flow::Continue(())
}

/// Lines that would be right if they were not too long. A count cut to 16 bits
/// would take 65,537 points for one.
pub fn too_many_points(library: &Library, tally: &mut Tally) -> Flow {
    const CUT_TO_ONE: usize = 65_537;
    for conversion in some_conversions() {
        let codes = random_codes(conversion, CUT_TO_ONE);
        for points in [MOST_POINTS + 1, 2 * MOST_POINTS, 65_536, CUT_TO_ONE] {
            compare_lengths(library, tally, conversion, &codes[..3 * points], 3 * points)?;
        }
        // And the one point that a cut count would leave.
        compare_lengths(library, tally, conversion, &codes, 3)?;
        compare_lengths(library, tally, conversion, &codes[..3], 3 * CUT_TO_ONE)?;
    }
    Flow::Continue(())
}

/// Seventeen shares no factor with the 72 of a depth, so rows, ranges and directions
/// all have a turn.
fn some_conversions() -> impl Iterator<Item = (Direction, Conversion)> {
    DEPTHS.into_iter().flat_map(conversions).step_by(17)
}

/// Lengths from a point less to a point more, which fit together or not. Among
/// them are lines that are not of whole points, with outputs just as long.
fn compare_around(
    library: &Library,
    tally: &mut Tally,
    conversion: (Direction, Conversion),
    points: usize,
) -> Flow {
    let codes = random_codes(conversion, points + 1);
    let around = 3 * points.saturating_sub(1)..=3 * (points + 1);
    for length in around.clone() {
        for out_length in around.clone() {
            compare_lengths(library, tally, conversion, &codes[..length], out_length)?;
        }
    }
    Flow::Continue(())
}

/// Good codes, and a bad one at the end, which competes with wrong lengths.
fn compare_lengths(
    library: &Library,
    tally: &mut Tally,
    (direction, conversion): (Direction, Conversion),
    codes: &[u16],
    length: usize,
) -> Flow {
    compare(library, tally, direction, conversion, codes, length)?;
    let mut codes = codes.to_vec();
    if let Some(last) = codes.last_mut() {
        *last = u16::MAX;
        compare(library, tally, direction, conversion, &codes, length)?;
    }
    Flow::Continue(())
}

fn random_codes((_, conversion): (Direction, Conversion), points: usize) -> Vec<u16> {
    inputs::random(conversion[DEPTH], points, &mut Random::new())
}
