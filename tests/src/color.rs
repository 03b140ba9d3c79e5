//! R'G'B' and Y'CbCr: one comparison of both functions with the reference, and
//! the parts that choose what to compare.

use reference::color;
use reference::lines::Counts;
use reference::refusal::Refusal;

use crate::clamped::{counted, Clamped};
use crate::guarded::{Guarded, Outcome};
use crate::layouts::RANGES;
use crate::library::{Conversion, Direction, Library};
use crate::part::{part, Part};
use crate::tally::{Flow, Tally};

pub mod bound;
mod cuts;
mod examples;
pub mod exhaustive;
mod inputs;
mod lengths;
mod printed;
mod refusals;
mod values;

/// The parts that try a library, the quick ones first: most wrong programs are
/// caught by them.
pub const PARTS: &[Part] = &[
    part("colors, marked examples", examples::marked),
    part("colors, greys", values::greys),
    part("colors, short lengths", lengths::short_lines),
    part("colors, one number at a time", refusals::single),
    part("colors, corners", values::corners),
    part("colors, greatest codes and above", refusals::codes),
    part("colors, cuts in each place", cuts::short_lines),
    part("colors, cuts in long lines", cuts::long_lines),
    part("colors, cuts point by point", cuts::by_single_points),
    part("colors, numbers in pairs", refusals::pairs),
    part("colors, beyond 4,096 points", lengths::too_many_points),
    part("colors, lengths around 4,096", lengths::long_lines),
    part("colors, random at 10 and 12 bits", values::random),
    part("colors, grid at 8 bits", values::in_steps),
    bound::EXAMPLES,
    bound::POINTS,
];

/// The parts that go through a whole domain.
pub const WHOLE_PARTS: &[Part] = &[
    part("colors, one conversion whole", exhaustive::one_conversion),
    bound::WHOLE,
];

/// The parts that need no library.
pub const REFERENCE_PARTS: &[Part] = &[part("printed matrices", printed::document_003)];

const MOST_POINTS: usize = 4096;
const DEPTHS: [u8; 3] = [8, 10, 12];
pub const PRIMARIES: [u8; 4] = [1, 2, 3, 4];
pub const DIRECTIONS: [Direction; 2] = [Direction::RgbToYcbcr, Direction::YcbcrToRgb];

/// The place of the depth in a conversion.
pub const DEPTH: usize = 1;

/// The 36 conversions of a depth, in both directions.
fn conversions(depth: u8) -> impl Iterator<Item = (Direction, Conversion)> {
    PRIMARIES
        .into_iter()
        .flat_map(move |primaries| conversions_of(primaries, depth))
}

/// The nine pairs of ranges, in both directions.
fn conversions_of(primaries: u8, depth: u8) -> impl Iterator<Item = (Direction, Conversion)> {
    DIRECTIONS.into_iter().flat_map(move |direction| {
        RANGES.into_iter().flat_map(move |range_in| {
            RANGES
                .into_iter()
                .map(move |range_out| (direction, [primaries, depth, range_in, range_out]))
        })
    })
}

/// The reference's answer, with the output as it must be afterwards.
pub fn expected_convert(
    direction: Direction,
    conversion: Conversion,
    codes: &mut Guarded<u16>,
    out: &mut Clamped<u16>,
) -> i64 {
    let counts = converted(direction, conversion, codes.elements(), out.output());
    counted(counts, &mut out.cuts)
}

/// The reference's conversion of a line.
pub fn converted(
    direction: Direction,
    conversion: Conversion,
    codes: &[u16],
    out: &mut [u16],
) -> Result<Counts, Refusal> {
    match direction {
        Direction::RgbToYcbcr => color::rgb_to_ycbcr(conversion, codes, out),
        Direction::YcbcrToRgb => color::ycbcr_to_rgb(conversion, codes, out),
    }
}

/// The library's answer, output and cuts against the reference's. The codes, and what
/// lies beside them, must stay as they are.
fn compare(
    library: &Library,
    tally: &mut Tally,
    direction: Direction,
    conversion: Conversion,
    codes: &[u16],
    length: usize,
) -> Flow {
    let lent = Guarded::holding(codes);
    let mut codes_after = lent.clone();
    let outcome = Outcome::with_cuts(length, |out| {
        library.convert(direction, conversion, &mut codes_after, out)
    });
    let expected = Outcome::with_cuts(length, |out| {
        let counts = converted(direction, conversion, codes, out.output());
        counted(counts, &mut out.cuts)
    });
    let kept = codes_after == lent;
    tally.compare(outcome == expected && kept, || {
        format!(
            "{direction:?} {conversion:?}, {} codes to {length}, {:?}: {}{}",
            codes.len(),
            start(codes),
            outcome.unlike(&expected),
            if kept { "" } else { "; the codes are changed" }
        )
    })
}

/// Lines of these codes, as many as are needed, into outputs as long as they are.
fn compare_all(
    library: &Library,
    tally: &mut Tally,
    (direction, conversion): (Direction, Conversion),
    codes: &[u16],
) -> Flow {
    for line in codes.chunks(3 * MOST_POINTS) {
        compare(library, tally, direction, conversion, line, line.len())?;
    }
    Flow::Continue(())
}

/// As many codes as a description shows.
fn start(codes: &[u16]) -> &[u16] {
    &codes[..codes.len().min(12)]
}
