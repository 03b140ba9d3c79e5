//! All points of 8-bit codes that the bound speaks of, by BT.709.
//!
//! The two right programs would take some twenty seconds each for these, and are not tried;
//! the wrong ones that this part must catch are quick.

use reference::bound::{codes, most_by_ranges};

use crate::library::Library;
use crate::tally::{Flow, Tally};

use super::super::inputs;
use super::{stays, PAIRS};

const PRIMARIES: u8 = 1;
const DEPTH: u8 = 8;

/// The farthest that a code moves is the bound, with each pair of ranges.
pub fn exactly(library: &Library, tally: &mut Tally) -> Flow {
    let mut found = Vec::new();
    for [first, second] in PAIRS {
        let way = [PRIMARIES, DEPTH, first, second];
        let codes = codes(first, DEPTH).expect("codes of the bound");
        let mut farthest = 0;
        for line in (0..).map(|line| inputs::line_of_all(&codes, line)) {
            if line.is_empty() {
                break;
            }
            stays(library, tally, way, &line, &mut farthest)?;
        }
        let most = most_by_ranges(first, second);
        tally.compare(most == Some(farthest), || {
            format!("there and back {way:?}: moved by {farthest} at most, must be by {most:?}")
        })?;
        found.push(format!("{} {farthest}", name(first, second)));
    }
    tally.tell(format!("moved at most by: {}", found.join(", ")));
    Flow::Continue(())
}

fn name(rgb: u8, ycbcr: u8) -> &'static str {
    match (rgb, ycbcr) {
        (1, 1) => "narrow",
        (1, _) => "narrow through full",
        (_, 1) => "full through narrow",
        _ => "full",
    }
}
