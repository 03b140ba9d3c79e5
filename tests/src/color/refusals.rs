//! Numbers outside the paper and codes above 2^n - 1, with other refusals that
//! compete with theirs.

use crate::library::{Conversion, Direction, Library};
use crate::random::Random;
use crate::tally::{Flow, Tally};

use super::{compare, conversions, inputs, DEPTHS, DIRECTIONS, MOST_POINTS};

/// The greatest code, the numbers above it, and each higher bit alone, in every
/// place of short lines and in some of the longest.
pub fn codes(library: &Library, tally: &mut Tally) -> Flow {
    let mut random = Random::new();
    for depth in DEPTHS {
        let greatest = inputs::greatest_code(depth);
        let higher_bits = (depth..16).map(|bit| 1 << bit);
        let numbers: Vec<u16> = [greatest, greatest + 2, u16::MAX]
            .into_iter()
            .chain(higher_bits)
            .collect();
        for (turn, (direction, conversion)) in conversions(depth).enumerate() {
            let longest = turn.is_multiple_of(17).then_some(MOST_POINTS);
            for points in [1, 2, 5].into_iter().chain(longest) {
                let mut codes = inputs::random(depth, points, &mut random);
                for place in places(points) {
                    for &number in &numbers {
                        let before = codes[place];
                        codes[place] = number;
                        compare(library, tally, direction, conversion, &codes, 3 * points)?;
                        codes[place] = before;
                    }
                }
            }
        }
    }
    Flow::Continue(())
}

/// Each number in turn takes all its 256 values, from every conversion.
pub fn single(library: &Library, tally: &mut Tally) -> Flow {
    for (direction, conversion) in DEPTHS.into_iter().flat_map(conversions) {
        for place in 0..conversion.len() {
            for number in 0..=u8::MAX {
                let mut changed = conversion;
                changed[place] = number;
                compare_lines(library, tally, direction, changed)?;
            }
        }
    }
    Flow::Continue(())
}

/// Each two numbers take all their 65,536 values.
pub fn pairs(library: &Library, tally: &mut Tally) -> Flow {
    let codes = [200, 100, 50];
    for direction in DIRECTIONS {
        let conversion: Conversion = [4, 10, 1, 3];
        for first in 0..conversion.len() {
            for second in first + 1..conversion.len() {
                for numbers in 0..=u16::MAX {
                    let mut changed = conversion;
                    [changed[first], changed[second]] = numbers.to_be_bytes();
                    compare(library, tally, direction, changed, &codes, 3)?;
                }
            }
        }
    }
    Flow::Continue(())
}

/// Two points of good codes, of codes that are too high for some depths or for
/// all, with an output of the right length and of wrong ones, and a line that is
/// not of whole points.
fn compare_lines(
    library: &Library,
    tally: &mut Tally,
    direction: Direction,
    conversion: Conversion,
) -> Flow {
    for last in [255, 1023, u16::MAX] {
        let codes = [0, 1, 2, 254, 255, last];
        for length in [3, 6, 7] {
            compare(library, tally, direction, conversion, &codes, length)?;
        }
        compare(library, tally, direction, conversion, &codes[1..], 5)?;
    }
    Flow::Continue(())
}

/// All places of a line, or of the longest the first, the middle and the last.
fn places(points: usize) -> Vec<usize> {
    match points {
        MOST_POINTS => vec![0, 3 * points / 2, 3 * points - 1],
        _ => (0..3 * points).collect(),
    }
}
