//! Lengths of descriptors, and layouts that have none.

use crate::layouts;
use crate::library::Library;
use crate::tally::{Flow, Tally};

use super::{compare_read, compare_write, descriptor_of, SIZE};

/// Every length up to two descriptors, with bytes that would be right and with a
/// wrong first byte.
pub fn read(library: &Library, tally: &mut Tally) -> Flow {
    for layout in layouts::one_of_each_size() {
        let mut twice = [descriptor_of(layout); 2].concat();
        for length in 0..=twice.len() {
            compare_read(library, tally, &twice[..length])?;
        }
        twice[0] += 1;
        for length in 0..=twice.len() {
            compare_read(library, tally, &twice[..length])?;
        }
    }
    Flow::Continue(())
}

/// Every number of a layout takes all its values, with the right length and with
/// others. Groups have no descriptor.
pub fn write(library: &Library, tally: &mut Tally) -> Flow {
    for layout in layouts::one_of_each_size_and_groups() {
        for changed in layouts::changed(layout) {
            for length in [0, SIZE - 1, SIZE, SIZE + 1] {
                compare_write(library, tally, changed, length)?;
            }
        }
        for length in 0..=2 * SIZE {
            compare_write(library, tally, layout, length)?;
        }
    }
    Flow::Continue(())
}
