//! R'G'B' codes to Y'CbCr and back to the first range: how far they move, and how far
//! they may at most, by request A5.

use std::ops::RangeInclusive;

use crate::color::{rgb_to_ycbcr, ycbcr_to_rgb};
use crate::refusal::Refusal;

const NARROW: u8 = 1;
const FULL: u8 = 2;

/// Primaries, depth, the range of the R'G'B' codes, and that of the Y'CbCr codes.
pub type Way = [u8; 4];

/// A point there, and back.
#[derive(Clone, Copy, Debug, PartialEq, Eq)]
pub struct Trip {
    pub ycbcr: [u16; 3],
    pub rgb: [u16; 3],
}

pub fn there_and_back(way: Way, given: [u16; 3]) -> Result<Trip, Refusal> {
    let [primaries, depth, first, second] = way;
    let (mut ycbcr, mut rgb) = ([0; 3], [0; 3]);
    rgb_to_ycbcr([primaries, depth, first, second], &given, &mut ycbcr)?;
    ycbcr_to_rgb([primaries, depth, second, first], &ycbcr, &mut rgb)?;
    Ok(Trip { ycbcr, rgb })
}

/// How far each code of a point may move, or nothing if the bound does not speak of it.
pub fn most(way: Way, given: [u16; 3]) -> Option<u16> {
    let [_, depth, first, second] = way;
    let codes = codes(first, depth)?;
    let all = given.iter().all(|code| codes.contains(code));
    most_by_ranges(first, second).filter(|_| all)
}

/// At most 1 where both ranges are equal or where narrow R'G'B' goes through full Y'CbCr;
/// full through narrow at most 2. Only ranges 1 and 2 are spoken of.
pub fn most_by_ranges(rgb: u8, ycbcr: u8) -> Option<u16> {
    match (rgb, ycbcr) {
        (NARROW, NARROW) | (FULL, FULL) | (NARROW, FULL) => Some(1),
        (FULL, NARROW) => Some(2),
        _ => None,
    }
}

/// The R'G'B' codes that the bound speaks of: narrow ones must be within 16s .. 235s, where
/// s = 2^(depth-8).
pub fn codes(range: u8, depth: u8) -> Option<RangeInclusive<u16>> {
    let s = match depth {
        8 => 1,
        10 => 4,
        12 => 16,
        _ => return None,
    };
    match range {
        NARROW => Some(16 * s..=235 * s),
        FULL => Some(0..=256 * s - 1),
        _ => None,
    }
}

/// By how much each code has moved.
pub fn moved(given: [u16; 3], back: [u16; 3]) -> [u16; 3] {
    [0, 1, 2].map(|channel| given[channel].abs_diff(back[channel]))
}

#[cfg(test)]
mod tests {
    use super::{codes, most, most_by_ranges, moved, there_and_back, Trip};
    use crate::refusal::Refusal;

    #[test]
    fn as_far_as_they_may() {
        // Y' = 0.7152 * 102 + 0.0722 * 255 = 91.3614 codes of full range, and of narrow range
        // 16 + 219/255 of that = 94.4633; Cb = 128 + 224/255 (255 - 91.3614)/1.8556 =
        // 205.4657, and Cr = 128 - 224/255 * 91.3614/1.5748 = 77.0382. Back: B' = 255 (78/219
        // + 1.8556 * 77/224) = 253.4769.
        let trip = there_and_back([1, 8, 2, 1], [0, 102, 255]);
        assert_eq!(
            trip,
            Ok(Trip {
                ycbcr: [94, 205, 77],
                rgb: [0, 102, 253]
            })
        );
        assert_eq!(moved([0, 102, 255], [0, 102, 253]), [0, 0, 2]);
        assert_eq!(most([1, 8, 2, 1], [0, 102, 255]), Some(2));
    }

    #[test]
    fn the_ranges() {
        assert_eq!(most_by_ranges(1, 1), Some(1));
        assert_eq!(most_by_ranges(2, 2), Some(1));
        assert_eq!(most_by_ranges(1, 2), Some(1));
        assert_eq!(most_by_ranges(2, 1), Some(2));
        for other in [0, 3, 4] {
            for range in [1, 2, 3] {
                assert_eq!(most_by_ranges(range, other), None);
                assert_eq!(most_by_ranges(other, range), None);
            }
            assert_eq!(codes(other, 8), None);
        }
    }

    #[test]
    fn the_codes() {
        for (depth, narrow, full) in [
            (8, 16..=235, 0..=255),
            (10, 64..=940, 0..=1023),
            (12, 256..=3760, 0..=4095),
        ] {
            let (low, high) = (*narrow.start(), *narrow.end());
            for second in [1, 2] {
                let way = [4, depth, 1, second];
                assert_eq!(most(way, [low, high, low]), Some(1));
                for channel in 0..3 {
                    for beyond in [low - 1, high + 1] {
                        let mut given = [high; 3];
                        given[channel] = beyond;
                        assert_eq!(most(way, given), None);
                    }
                }
            }
            assert_eq!(codes(1, depth), Some(narrow));
            assert_eq!(codes(2, depth), Some(full));
        }
        assert_eq!(codes(1, 9), None);
    }

    #[test]
    fn beyond_the_codes() {
        // Narrow greys beyond black and white are cut in full range.
        for (given, ycbcr, rgb) in [(0, 0, 16), (14, 0, 16), (237, 255, 235), (255, 255, 235)] {
            let trip = Trip {
                ycbcr: [ycbcr, 128, 128],
                rgb: [rgb; 3],
            };
            assert_eq!(there_and_back([1, 8, 1, 2], [given; 3]), Ok(trip));
            assert_eq!(most([1, 8, 1, 2], [given; 3]), None);
        }
    }

    #[test]
    fn refusals() {
        let refusal = |way, given| there_and_back(way, given).expect_err("a refusal");
        assert_eq!(refusal([5, 8, 1, 1], [16; 3]), Refusal::Outside);
        assert_eq!(refusal([1, 8, 1, 4], [16; 3]), Refusal::Outside);
        assert_eq!(refusal([1, 8, 2, 2], [0, 256, 0]), Refusal::CodeTooHigh);
    }
}
