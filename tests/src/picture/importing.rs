//! Imports: their items and primaries, lengths and codes, and refusals that compete.

use crate::card::SIZE;
use crate::library::picture::Imported;
use crate::library::Library;
use crate::random::Random;
use crate::tally::{Flow, Tally};

use super::shots::{code_bytes, file, header, largest, random_codes, DEPTHS};
use super::{compare_import, compare_imported};

/// Bytes of an imported point.
fn point_bytes(depth: u8) -> usize {
    match depth {
        8 => 3,
        10 => 4,
        _ => 5,
    }
}

/// Every primaries with some items, and items of every bit.
pub fn items(library: &Library, tally: &mut Tally) -> Flow {
    for depth in DEPTHS {
        let ppm = file([1, 1], depth, &[1, 2, 3]);
        for primaries in 0..=u8::MAX {
            for item in [0, 1, 7, u64::MAX] {
                compare_imported(library, tally, &ppm, (item, primaries))?;
            }
        }
        for bit in 0..64 {
            for primaries in 1..=4 {
                compare_imported(library, tally, &ppm, (1 << bit, primaries))?;
            }
        }
    }
    Flow::Continue(())
}

/// Every length of what follows the header, of the card's room and of that for points, up to
/// some more than needed; then lengths that would be right if they were cut to 8 or 16 bits.
pub fn lengths(library: &Library, tally: &mut Tally) -> Flow {
    let mut random = Random::new();
    for depth in DEPTHS {
        for sides in [[1, 1], [3, 2], [2, 3]] {
            let codes = random_codes(&mut random, sides, depth);
            let ppm = file(sides, depth, &codes);
            let points = usize::from(sides[0]) * usize::from(sides[1]);
            let packed = points * point_bytes(depth);
            let mut compare =
                |ppm: &[u8], room: Imported| compare_import(library, tally, ppm, (7, 2), room);
            for length in 0..=ppm.len() {
                compare(&ppm[..length], Imported::new(packed))?;
            }
            for more in [1, 2, 3, 6, 256, 65_536] {
                let longer = [&ppm[..], &vec![0; more]].concat();
                compare(&longer, Imported::new(packed))?;
            }
            for card in (0..=2 * SIZE).chain([256 + SIZE, 65_536 + SIZE]) {
                compare(&ppm, Imported::with(card, packed))?;
            }
            for room in (0..=packed + 9).chain([packed + 256, packed + 65_536]) {
                compare(&ppm, Imported::new(room))?;
            }
            // The rooms exchanged, and those that other depths need.
            compare(&ppm, Imported::with(packed, SIZE))?;
            for depth in DEPTHS {
                compare(&ppm, Imported::new(points * point_bytes(depth)))?;
            }
        }
    }
    Flow::Continue(())
}

/// Each place of a picture in turn has a code above the largest, or the largest itself; then
/// every number of 16 bits, in channels that take turns.
pub fn codes_above(library: &Library, tally: &mut Tally) -> Flow {
    for depth in [10, 12] {
        let largest = largest(depth);
        for sides in [[1, 1], [3, 5], [65, 1], [129, 1], [257, 1]] {
            let places = 3 * usize::from(sides[0]) * usize::from(sides[1]);
            let step = if places > 50 { 7 } else { 1 };
            for place in (0..places).step_by(step).chain([places - 1]) {
                for code in [largest, largest + 1, 2 * (largest + 1), u16::MAX] {
                    let mut codes = vec![5; places];
                    codes[place] = code;
                    compare_imported(library, tally, &file(sides, depth, &codes), (7, 1))?;
                }
            }
        }
        for code in 0..=u16::MAX {
            let mut codes = [largest, 0, 1];
            codes[usize::from(code % 3)] = code;
            compare_imported(library, tally, &file([1, 1], depth, &codes), (7, 1))?;
        }
    }
    Flow::Continue(())
}

/// Every code of every depth in every channel.
pub fn every_code(library: &Library, tally: &mut Tally) -> Flow {
    for depth in DEPTHS {
        let largest = largest(depth);
        let codes: Vec<u16> = (0..=largest)
            .flat_map(|code| [code, largest - code, (5 * code + 3) & largest])
            .collect();
        for sides in [[largest + 1, 1], [1, largest + 1], [64, (largest + 1) / 64]] {
            compare_imported(library, tally, &file(sides, depth, &codes), (7, 3))?;
        }
    }
    Flow::Continue(())
}

/// All combinations of an item, primaries, a header, what follows it, a code above the
/// largest, and rooms, each right or wrong.
pub fn competing(library: &Library, tally: &mut Tally) -> Flow {
    for depth in DEPTHS {
        for given in [(7, 1), (0, 1), (7, 5), (7, 0), (0, 0)] {
            for ppm in files(depth) {
                let packed = 2 * point_bytes(depth);
                for card in [SIZE, SIZE - 1, SIZE + 1, 0] {
                    for room in [packed, packed - 1, packed + 1, 0] {
                        let room = Imported::with(card, room);
                        compare_import(library, tally, &ppm, given, room)?;
                    }
                }
            }
        }
    }
    Flow::Continue(())
}

/// Files of two points with headers that are right, wrong or cut short, and with points that
/// are right, too few or too many, or above the largest.
fn files(depth: u8) -> Vec<Vec<u8>> {
    let right = header([2, 1], largest(depth));
    let headers = [
        right.clone(),
        right.replace("P6", "P5"),
        right.replace("2 1", "02 1"),
        right.replace("2 1", "2 0"),
        header([2, 1], largest(depth) - 1),
        header([4097, 1], largest(depth)),
        right.trim_end().to_string(),
        "P6\n".to_string(),
        String::new(),
    ];
    let points = 6 * code_bytes(depth);
    let mut files = Vec::new();
    for header in headers {
        for length in [points, points - 1, points + 1, 0] {
            for above in [None, Some(0), Some(2), Some(length.saturating_sub(2))] {
                let mut points = vec![1; length];
                if let Some(high) = above.and_then(|place| points.get_mut(place)) {
                    *high = 255;
                }
                files.push([header.as_bytes(), &points].concat());
            }
        }
    }
    files
}
