//! All 2^24 triples of 8-bit codes: of a row, for every pair of ranges and in both
//! directions, and of one conversion alone, which is quick.

use crate::exhaustive::on_all_cores;
use crate::guarded::{Guarded, Outcome};
use crate::library::{Conversion, Direction, Library, CUTS};
use crate::tally::{Flow, Tally};

use super::{compare_all, conversions_of, expected_convert, inputs, MOST_POINTS};

/// The triples in one line.
pub const TRIPLES: u32 = MOST_POINTS as u32;

/// The lines that hold all triples.
const LINES: u32 = (1 << 24) / TRIPLES;

/// By BT.601, both in full range. Among the triples are 257 that make exactly -1/2: B' of
/// 221 and 3 with any Cr, and G' of 18, 78, 178.
const ONE: (Direction, Conversion) = (Direction::YcbcrToRgb, [2, 8, 2, 2]);

/// Goes through the triples on all cores. A comparison is one line of triples.
pub fn run(library: &Library, primaries: u8) -> Tally {
    let conversions: Vec<_> = conversions_of(primaries, 8).collect();
    on_all_cores(LINES, |line, tally| {
        let codes = triples(line);
        for &conversion in &conversions {
            compare_all(library, tally, conversion, &codes)?;
        }
        Flow::Continue(())
    })
}

/// Goes through those of one conversion. What is cut is also told without the reference.
pub fn one_conversion(library: &Library, tally: &mut Tally) -> Flow {
    let (direction, conversion) = ONE;
    for line in 0..LINES {
        let mut codes = Guarded::holding(&triples(line));
        let cuts: usize = codes.elements().chunks(3).map(cuts_of_one).sum();
        let length = codes.length();
        let outcome = Outcome::with_cuts(length, |out| {
            library.convert(direction, conversion, &mut codes, out)
        });
        let expected = Outcome::with_cuts(length, |out| {
            expected_convert(direction, conversion, &mut codes, out)
        });
        let agreed = expected.cuts[CUTS] == cuts as u32;
        tally.compare(outcome == expected && agreed, || {
            format!(
                "{direction:?} {conversion:?}, line {line} of all triples, {cuts:x} cut: {}",
                outcome.unlike(&expected)
            )
        })?;
    }
    Flow::Continue(())
}

/// How many of R', G' and B' are cut, with Y' = y/255, Cb = d/255 and Cr = e/255. R' is
/// (y + 1.402 e)/255, G' (y - (0.202008 d + 0.419198 e)/0.587)/255, and B' (y + 1.772
/// d)/255: each is cut if 255 times that is -1/2 or less, or 255.5 or more.
fn cuts_of_one(codes: &[u16]) -> usize {
    let [y, cb, cr] = [codes[0], codes[1], codes[2]].map(i32::from);
    let [d, e] = [cb - 128, cr - 128];
    let numbers = [
        (1000 * y + 1402 * e, 1000),
        (587_000 * y - 202_008 * d - 419_198 * e, 587_000),
        (1000 * y + 1772 * d, 1000),
    ];
    let is_cut = |&(number, one): &(i32, i32)| 2 * number <= -one || 511 * one <= 2 * number;
    numbers.iter().filter(|number| is_cut(number)).count()
}

/// The codes of a line of triples.
fn triples(line: u32) -> Vec<u16> {
    inputs::line_of_all(&(0..=255), line)
}
