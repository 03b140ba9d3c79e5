//! How many codes of a converted line are cut: none, those of one point in each place,
//! and those of all points, at lengths around whole turns of eight points; and the count
//! by single points. This asks the library alone: the reference has no part in it.

use crate::guarded::{Guarded, Outcome};
use crate::library::{Conversion, Direction, Library, CUTS};
use crate::random::Random;
use crate::tally::{Flow, Tally};

use super::{conversions, inputs, DEPTHS, MOST_POINTS};

use Direction::{RgbToYcbcr, YcbcrToRgb};

/// Up to four turns, and a point less and more than each.
const LENGTHS: [usize; 15] = [0, 1, 2, 7, 8, 9, 15, 16, 17, 23, 24, 25, 31, 32, 33];

/// Points of one conversion, of which it is known how many codes are cut.
struct Known {
    direction: Direction,
    conversion: Conversion,
    /// None is cut.
    inside: [u16; 3],
    /// So many are cut.
    cut: &'static [([u16; 3], usize)],
}

const KNOWN: [Known; 10] = [
    // Y' is 255; Cb is 128 + 224 * 255/438 = 258.4110, and so is Cr.
    Known {
        direction: RgbToYcbcr,
        conversion: [1, 8, 1, 1],
        inside: [100, 150, 200],
        cut: &[([255; 3], 1), ([0, 0, 255], 1), ([255, 0, 0], 1)],
    },
    // Y' is 255 (239 * 0.0593 - 16 * 0.9407)/219 = -1.0229, where Cb is 128 + 255 *
    // 255/438 = 276.4589.
    Known {
        direction: RgbToYcbcr,
        conversion: [4, 8, 1, 2],
        inside: [100, 150, 200],
        cut: &[([0, 0, 255], 2)],
    },
    // Cb and Cr are 512 + 1023/2 = 1023.5; of yellow Cb is 1/2.
    Known {
        direction: RgbToYcbcr,
        conversion: [2, 10, 2, 2],
        inside: [1023, 1023, 0],
        cut: &[([0, 0, 1023], 1), ([1023, 0, 0], 1)],
    },
    // Y' is 4096, as are Cb of blue and Cr of red; of cyan Cr is 0.
    Known {
        direction: RgbToYcbcr,
        conversion: [4, 12, 2, 3],
        inside: [0, 4095, 4095],
        cut: &[([4095; 3], 1), ([0, 0, 4095], 1), ([4095, 0, 0], 1)],
    },
    // R' and B' are -1/2: 350 - 1.402 * 250 and 221 - 1.772 * 125. G' is -1/2, 18 - 0.37 *
    // 50, where B' is 18 - 1.772 * 50. G' alone is 1000 + 50 * 0.621206/0.587 = 1052.9136.
    Known {
        direction: YcbcrToRgb,
        conversion: [2, 10, 2, 2],
        inside: [512, 512, 512],
        cut: &[
            ([350, 512, 262], 1),
            ([221, 387, 512], 1),
            ([18, 462, 562], 2),
            ([1000, 462, 462], 1),
        ],
    },
    // In the older full range -1/2 is 0, which is not cut.
    Known {
        direction: YcbcrToRgb,
        conversion: [3, 10, 3, 3],
        inside: [350, 512, 262],
        cut: &[
            ([221, 387, 512], 0),
            ([18, 462, 562], 1),
            ([1000, 462, 462], 1),
        ],
    },
    // B' is -1/2, 221 - 1.772 * 125, and G', where B' is -70.6.
    Known {
        direction: YcbcrToRgb,
        conversion: [2, 8, 2, 2],
        inside: [128, 128, 128],
        cut: &[([221, 3, 152], 1), ([18, 78, 178], 2)],
    },
    // R' is -1/2, 1968 - 1.5748 * 1250, and B', 2319 - 1.8556 * 1250.
    Known {
        direction: YcbcrToRgb,
        conversion: [1, 12, 2, 2],
        inside: [2048, 2048, 2048],
        cut: &[([1968, 2048, 798], 1), ([2319, 798, 2048], 1)],
    },
    // All are -1023 * 64/876; R' alone is 1023 (436/876 + 1.4746/2) = 1263.4223.
    Known {
        direction: YcbcrToRgb,
        conversion: [4, 10, 1, 2],
        inside: [500, 512, 512],
        cut: &[([0, 512, 512], 3), ([500, 512, 960], 1)],
    },
    // All are 0 or 4095; R' alone is 2000 + 3504 * 1.5748/2 = 4759.0496.
    Known {
        direction: YcbcrToRgb,
        conversion: [1, 12, 1, 1],
        inside: [16, 2048, 2048],
        cut: &[
            ([0, 2048, 2048], 3),
            ([4095, 2048, 2048], 3),
            ([2000, 2048, 3840], 1),
        ],
    },
];

pub fn short_lines(library: &Library, tally: &mut Tally) -> Flow {
    for known in &KNOWN {
        for points in LENGTHS {
            in_each_place(library, tally, known, points, 0..points)?;
        }
    }
    Flow::Continue(())
}

/// The points of the last two turns, and of the longest lines some alone.
pub fn long_lines(library: &Library, tally: &mut Tally) -> Flow {
    for known in &KNOWN {
        for points in [255, 260] {
            in_each_place(library, tally, known, points, points - 16..points)?;
        }
        for points in [MOST_POINTS - 1, MOST_POINTS] {
            let places = [0, points - 8, points - 1];
            in_each_place(library, tally, known, points, places.into_iter())?;
        }
    }
    Flow::Continue(())
}

/// A line has as many as its points have, each converted alone.
pub fn by_single_points(library: &Library, tally: &mut Tally) -> Flow {
    let mut random = Random::new();
    for depth in DEPTHS {
        for (direction, conversion) in conversions(depth) {
            let codes = inputs::random(depth, 100, &mut random);
            let cuts = |codes: &[u16]| told(library, direction, conversion, codes).1;
            let sum = codes.chunks(3).map(cuts).fold(0, u32::wrapping_add);
            let codes = &codes[..];
            has_cuts(library, tally, (direction, conversion), codes, sum as usize)?;
        }
    }
    Flow::Continue(())
}

fn in_each_place(
    library: &Library,
    tally: &mut Tally,
    known: &Known,
    points: usize,
    places: impl Iterator<Item = usize> + Clone,
) -> Flow {
    let by = (known.direction, known.conversion);
    let mut line = vec![known.inside; points];
    has_cuts(library, tally, by, line.as_flattened(), 0)?;
    for &(point, cuts) in known.cut {
        let all = vec![point; points];
        has_cuts(library, tally, by, all.as_flattened(), cuts * points)?;
        for place in places.clone() {
            line[place] = point;
            has_cuts(library, tally, by, line.as_flattened(), cuts)?;
            line[place] = known.inside;
        }
    }
    Flow::Continue(())
}

fn has_cuts(
    library: &Library,
    tally: &mut Tally,
    (direction, conversion): (Direction, Conversion),
    codes: &[u16],
    must_be: usize,
) -> Flow {
    let told = told(library, direction, conversion, codes);
    let must_be = (codes.len() as i64 / 3, must_be as u32);
    tally.compare(told == must_be, || {
        let (points, _) = codes.as_chunks::<3>();
        let other = points.iter().position(|point| *point != points[0]);
        format!(
            "{direction:?} {conversion:?}, {:?} and another at {other:?}: points and cuts \
             {told:x?}, must be {must_be:x?}",
            points.first()
        )
    })
}

/// The answer and the number of cuts.
fn told(
    library: &Library,
    direction: Direction,
    conversion: Conversion,
    codes: &[u16],
) -> (i64, u32) {
    let mut codes = Guarded::holding(codes);
    let outcome = Outcome::with_cuts(codes.length(), |out| {
        library.convert(direction, conversion, &mut codes, out)
    });
    (outcome.answer, outcome.cuts[CUTS])
}
