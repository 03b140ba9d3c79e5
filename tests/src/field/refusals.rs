//! Numbers of bytes, channels and layouts that are refused, alone and together.

use crate::layouts;
use crate::library::{Layout, Library};
use crate::tally::{Flow, Tally};

use super::{compare_field_bytes, compare_field_code, count_of, CHANNELS};

/// A byte more than the longest point.
const MOST_BYTES: usize = 9;

/// A length cut to 8 or 16 bits would take these many more bytes for none.
const CUT_TO_NONE: [usize; 2] = [1 << 8, 1 << 16];

/// Every number of bytes up to more than a point's, and some that a cut length would
/// take for the right one.
pub fn lengths(library: &Library, tally: &mut Tally) -> Flow {
    for layout in layouts::chosen() {
        for channel in CHANNELS {
            compare_lengths(library, tally, layout, channel)?;
        }
    }
    for layout in layouts::one_of_each_size() {
        for channel in CHANNELS {
            for more in CUT_TO_NONE {
                let bytes = bytes(count_of(layout, channel) + more);
                compare_field_code(library, tally, layout, channel, &bytes)?;
            }
        }
    }
    Flow::Continue(())
}

/// Every channel, with each number of bytes. Groups have no fields.
pub fn channels(library: &Library, tally: &mut Tally) -> Flow {
    for layout in layouts::one_of_each_size_and_groups() {
        for channel in 0..=u8::MAX {
            compare_field_bytes(library, tally, layout, channel)?;
            compare_lengths(library, tally, layout, channel)?;
        }
    }
    Flow::Continue(())
}

/// Every number of a layout takes all its values, those inside the paper too, with
/// good channels and a bad one, and with each number of bytes.
pub fn layouts_outside(library: &Library, tally: &mut Tally) -> Flow {
    for layout in layouts::one_of_each_size_and_groups() {
        for changed in layouts::changed(layout) {
            for channel in 0..=3 {
                compare_field_bytes(library, tally, changed, channel)?;
                compare_lengths(library, tally, changed, channel)?;
            }
        }
    }
    Flow::Continue(())
}

fn compare_lengths(library: &Library, tally: &mut Tally, layout: Layout, channel: u8) -> Flow {
    let bytes = bytes(MOST_BYTES);
    for length in 0..=MOST_BYTES {
        compare_field_code(library, tally, layout, channel, &bytes[..length])?;
    }
    Flow::Continue(())
}

/// Bytes that differ from their neighbours.
fn bytes(count: usize) -> Vec<u8> {
    (0..count)
        .map(|place| (place as u8).wrapping_mul(75) ^ 0x5a)
        .collect()
}
