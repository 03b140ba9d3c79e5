//! The codes that are converted, three a point.

use std::ops::RangeInclusive;

use crate::random::Random;

use super::MOST_POINTS;

pub fn greatest_code(depth: u8) -> u16 {
    (1 << depth) - 1
}

/// All threes of these numbers.
pub fn triples(numbers: &[u16]) -> Vec<u16> {
    all_of([numbers; 3])
}

/// All threes of 8-bit codes in these steps.
pub fn grid(steps: [usize; 3]) -> Vec<u16> {
    let [first, second, third] = steps.map(|step| (0..=255).step_by(step).collect::<Vec<u16>>());
    all_of([&first, &second, &third])
}

/// All threes of a first, a second and a third number.
pub fn all_of([firsts, seconds, thirds]: [&[u16]; 3]) -> Vec<u16> {
    let mut codes = Vec::new();
    for &first in firsts {
        for &second in seconds {
            for &third in thirds {
                codes.extend([first, second, third]);
            }
        }
    }
    codes
}

/// All threes of these codes, in order and in lines of 4,096 points: the line of a number,
/// which is empty after the last.
pub fn line_of_all(codes: &RangeInclusive<u16>, line: u32) -> Vec<u16> {
    let span = codes.len() as u32;
    let points = MOST_POINTS as u32;
    let end = span.pow(3).min((line + 1) * points);
    (line * points..end)
        .flat_map(|number| {
            let steps = [number / span / span, number / span % span, number % span];
            steps.map(|steps| codes.start() + steps as u16)
        })
        .collect()
}

/// The ends of the codes, those of narrow range and of what it makes, the base of
/// differences, and neighbours of these; at 12 bits the top of the older full range
/// too.
pub fn corners(depth: u8) -> Vec<u16> {
    let s = 1 << (depth - 8);
    let middle = 128 * s;
    let top = greatest_code(depth);
    let mut numbers = vec![
        0,
        s - 1,
        s,
        16 * s,
        middle - 1,
        middle,
        middle + 1,
        235 * s,
        240 * s,
        255 * s - 1,
        255 * s,
        top - 3,
        top - 2,
        top - 1,
        top,
    ];
    numbers.sort();
    numbers.dedup();
    numbers
}

/// Any codes of a depth.
pub fn random(depth: u8, points: usize, random: &mut Random) -> Vec<u16> {
    (0..3 * points)
        .map(|_| (random.next() >> 16) as u16 & greatest_code(depth))
        .collect()
}
