//! Pictures of many sizes, odd ones and those around whole blocks of points.

use crate::card::cards;
use crate::layouts::{self, LEGACY, RANGE};
use crate::library::Library;
use crate::random::Random;
use crate::tally::{Flow, Tally};

use super::shots::{
    every_way, facts, file, lengths, open, random_bytes, random_codes, side_by_side, DEPTHS,
};
use super::{compare_export_len, compare_exported, compare_imported};

/// Counts of points around multiples of 16, 64, 128 and 256 in one line, in a column and in
/// several lines.
const SIDES: [[u16; 2]; 40] = [
    [1, 1],
    [2, 1],
    [1, 2],
    [3, 5],
    [15, 1],
    [16, 1],
    [17, 1],
    [1, 63],
    [64, 1],
    [65, 1],
    [13, 5],
    [8, 8],
    [21, 3],
    [33, 4],
    [127, 1],
    [128, 1],
    [129, 1],
    [43, 3],
    [32, 4],
    [1, 127],
    [191, 1],
    [193, 1],
    [255, 1],
    [256, 1],
    [257, 1],
    [17, 15],
    [16, 16],
    [85, 3],
    [128, 2],
    [129, 2],
    [2, 128],
    [383, 1],
    [385, 1],
    [51, 10],
    [512, 1],
    [3, 171],
    [640, 1],
    [767, 1],
    [257, 3],
    [1025, 1],
];

/// The longest lines and columns.
const LONGEST: [[u16; 2]; 4] = [[4096, 1], [1, 4096], [4096, 2], [4095, 1]];

const RANDOM_PICTURES: usize = 200;

/// Sides of every number of digits.
const DIGITS: [u16; 9] = [1, 9, 10, 99, 100, 999, 1000, 4095, 4096];

/// What is told of the files of all such sides.
pub fn told(library: &Library, tally: &mut Tally) -> Flow {
    for layout in cards::layouts() {
        for width in DIGITS {
            for height in DIGITS {
                let card = open(layout, [width, height], 0);
                for edition in [2, 3, 4] {
                    compare_export_len(library, tally, &card, edition)?;
                }
            }
        }
    }
    Flow::Continue(())
}

/// The longest lines and columns, of codes that stay as they are.
pub fn longest(library: &Library, tally: &mut Tally) -> Flow {
    let mut random = Random::new();
    for depth in [8, 12] {
        for sides in LONGEST {
            let codes = random_codes(&mut random, sides, depth);
            let ppm = file(sides, depth, &codes);
            compare_imported(library, tally, &ppm, (7, 1))?;
            let layout = side_by_side(1, 1, 2, depth);
            let [packed, _] = lengths(&facts(layout, sides, 0));
            let packed = random_bytes(&mut random, packed);
            compare_exported(library, tally, &open(layout, sides, 0), 2, &packed)?;
        }
    }
    Flow::Continue(())
}

/// Every way to be exported in every size; the longest ones take turns.
pub fn exported(library: &Library, tally: &mut Tally) -> Flow {
    let mut random = Random::new();
    for (turn, layout) in every_way().into_iter().enumerate() {
        let longest = [LONGEST[turn % LONGEST.len()]];
        for sides in SIDES.into_iter().chain(longest) {
            let card = open(layout, sides, turn);
            let [packed, _] = lengths(&facts(layout, sides, turn));
            let packed = random_bytes(&mut random, packed);
            compare_exported(library, tally, &card, 4, &packed)?;
        }
    }
    Flow::Continue(())
}

pub fn imported(library: &Library, tally: &mut Tally) -> Flow {
    let mut random = Random::new();
    for depth in DEPTHS {
        for sides in SIDES.into_iter().chain(LONGEST) {
            let codes = random_codes(&mut random, sides, depth);
            compare_imported(library, tally, &file(sides, depth, &codes), (7, 1))?;
        }
    }
    Flow::Continue(())
}

/// Random layouts, sides and bytes, exported; and random files.
pub fn random(library: &Library, tally: &mut Tally) -> Flow {
    let mut random = Random::new();
    let chosen = layouts::chosen().filter(|layout| layout[RANGE] != LEGACY);
    let layouts: Vec<_> = chosen.chain(layouts::groups()).collect();
    for turn in 0..RANDOM_PICTURES {
        let layout = layouts[random.below(layouts.len())];
        let sides = [0; 2].map(|_: u16| 1 + random.below(32) as u16);
        let card = open(layout, sides, turn);
        let [packed, _] = lengths(&facts(layout, sides, turn));
        let packed = random_bytes(&mut random, packed);
        compare_exported(library, tally, &card, 4, &packed)?;

        let depth = DEPTHS[random.below(3)];
        let codes = random_codes(&mut random, sides, depth);
        let given = (1 + u64::from(random.next()), 1 + random.below(4) as u8);
        compare_imported(library, tally, &file(sides, depth, &codes), given)?;
    }
    Flow::Continue(())
}
