//! Which codes become which: corners, greys, random codes, and a grid.

use crate::guarded::{Guarded, Outcome};
use crate::layouts::RANGES;
use crate::library::{Conversion, Direction, Library, CUTS};
use crate::plain::quantization::returned;
use crate::quantization::scale_of;
use crate::random::Random;
use crate::tally::{Flow, Tally};

use super::inputs::{self, grid, triples};
use super::{compare_all, conversions, DEPTHS, DIRECTIONS, MOST_POINTS, PRIMARIES};

/// The steps of the grid, of which each channel has the longer one in its turn. They
/// divide 255, so that both ends are on the grid.
const STEP: usize = 5;
const LONG_STEP: usize = 15;

/// Lines of random codes for each conversion.
const RANDOM_LINES: usize = 4;

pub fn corners(library: &Library, tally: &mut Tally) -> Flow {
    for depth in DEPTHS {
        let codes = triples(&inputs::corners(depth));
        for conversion in conversions(depth) {
            compare_all(library, tally, conversion, &codes)?;
        }
    }
    Flow::Continue(())
}

/// Three equal R'G'B' codes are the same Y' code with both differences at their
/// base, and back, if the range stays; but the codes that the range never makes
/// become its nearer end, cut.
pub fn greys(library: &Library, tally: &mut Tally) -> Flow {
    for depth in DEPTHS {
        let base = 1 << (depth - 1);
        for code in 0..=inputs::greatest_code(depth) {
            let [rgb, ycbcr] = [[code; 3], [code, base, base]];
            for primaries in PRIMARIES {
                for range in RANGES {
                    let conversion = [primaries, depth, range, range];
                    let [there, back] = DIRECTIONS;
                    let made = returned(scale_of([1, range, depth, 0]), code);
                    let cut = u32::from(made != code);
                    let grey = ([made, base, base], cut);
                    becomes(library, tally, (there, conversion), rgb, grey)?;
                    let grey = ([made; 3], 3 * cut);
                    becomes(library, tally, (back, conversion), ycbcr, grey)?;
                }
            }
        }
    }
    Flow::Continue(())
}

/// The codes made and the number of cuts. This asks the library alone: the reference has
/// no part in it.
fn becomes(
    library: &Library,
    tally: &mut Tally,
    (direction, conversion): (Direction, Conversion),
    given: [u16; 3],
    (made, cuts): ([u16; 3], u32),
) -> Flow {
    let mut lent = Guarded::holding(&given);
    let outcome = Outcome::with_cuts(3, |out| {
        library.convert(direction, conversion, &mut lent, out)
    });
    let told = (outcome.output.elements(), outcome.cuts[CUTS]);
    let must_be = (&made[..], cuts);
    tally.compare(told == must_be, || {
        format!("{direction:?} {conversion:?}, {given:?}: {told:?}, must be {must_be:?}")
    })
}

pub fn random(library: &Library, tally: &mut Tally) -> Flow {
    let mut random = Random::new();
    for depth in [10, 12] {
        for conversion in conversions(depth) {
            let codes = inputs::random(depth, RANDOM_LINES * MOST_POINTS, &mut random);
            compare_all(library, tally, conversion, &codes)?;
        }
    }
    Flow::Continue(())
}

pub fn in_steps(library: &Library, tally: &mut Tally) -> Flow {
    let grids = [0, 1, 2].map(|channel| {
        let mut steps = [STEP; 3];
        steps[channel] = LONG_STEP;
        grid(steps)
    });
    // In both directions each pair of ranges meets all of them, with a row each.
    for (turn, conversion) in conversions(8).enumerate() {
        compare_all(library, tally, conversion, &grids[(turn + turn / 18) % 3])?;
    }
    Flow::Continue(())
}
