//! R'G'B' codes to Y'CbCr and back to the first range: how far the library moves them,
//! against the bound of request A5, and the parts that choose which codes.

use reference::bound::{most_by_ranges, Way};

use crate::guarded::{Guarded, Outcome};
use crate::library::{Direction, Library};
use crate::part::{part, Part};
use crate::tally::{Flow, Tally};

use Direction::{RgbToYcbcr, YcbcrToRgb};

pub mod examples;
mod points;
mod whole;

/// Wrong programs are tried with each of these alone, so that each is seen to fail.
pub const EXAMPLES: Part = part("colors there and back, by hand", examples::worked_out);
pub const POINTS: Part = part("colors there and back, points", points::within);
pub const WHOLE: Part = part("colors there and back, whole", whole::exactly);

/// The range of R'G'B' and that of Y'CbCr.
const PAIRS: [[u8; 2]; 4] = [[1, 1], [1, 2], [2, 2], [2, 1]];

/// A line there and back: both answers, and the codes.
struct Trip {
    answers: [i64; 2],
    ycbcr: Guarded<u16>,
    rgb: Guarded<u16>,
}

impl Trip {
    fn of(library: &Library, way: Way, given: &[u16]) -> Trip {
        let [primaries, depth, first, second] = way;
        let length = given.len();
        let mut given = Guarded::holding(given);
        let there = Outcome::with_cuts(length, |out| {
            let conversion = [primaries, depth, first, second];
            library.convert(RgbToYcbcr, conversion, &mut given, out)
        });
        let mut ycbcr = there.output;
        let back = Outcome::with_cuts(length, |out| {
            let conversion = [primaries, depth, second, first];
            library.convert(YcbcrToRgb, conversion, &mut ycbcr, out)
        });
        Trip {
            answers: [there.answer, back.answer],
            ycbcr,
            rgb: back.output,
        }
    }

    /// How far a code has moved at most, and in which place.
    fn farthest(&self, given: &[u16]) -> (u16, usize) {
        let pairs = given.iter().zip(self.rgb.elements());
        let moved = pairs.map(|(given, back)| given.abs_diff(*back));
        let most = moved.clone().max().unwrap_or(0);
        let place = moved.clone().position(|by| by == most);
        (most, place.unwrap_or(0))
    }
}

/// Both calls must accept the line and answer its count of points, and no code may move
/// farther than it may at most. What is farthest is kept. This asks the library alone: the
/// reference has no part in it, but for the bound.
fn stays(
    library: &Library,
    tally: &mut Tally,
    way: Way,
    given: &[u16],
    farthest: &mut u16,
) -> Flow {
    let [_, _, first, second] = way;
    let most = most_by_ranges(first, second).expect("a bound of these ranges");
    let trip = Trip::of(library, way, given);
    let points = given.len() / 3;
    let (moved, place) = trip.farthest(given);
    *farthest = moved.max(*farthest);
    let accepted = trip.answers == [points as i64; 2];
    tally.compare(accepted && moved <= most, || {
        let point = place / 3;
        let codes = [given, trip.ycbcr.elements(), trip.rgb.elements()];
        format!(
            "there and back {way:?}, {points} points: answers {:?}; point {point}, {:?}, may move \
             by {most}",
            trip.answers,
            codes.map(|codes| codes.chunks(3).nth(point)),
        )
    })
}
