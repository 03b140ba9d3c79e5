//! The descriptor of every layout, there and back.

use crate::guarded::Outcome;
use crate::layouts;
use crate::library::{Layout, Library};
use crate::tally::{Flow, Tally};

use super::{compare_read, compare_write, descriptor_of, SIZE};

/// Reading back what was written asks the library alone.
pub fn every_layout(library: &Library, tally: &mut Tally) -> Flow {
    for layout in layouts::every() {
        compare_write(library, tally, layout, SIZE)?;
        let mut written = Outcome::of(SIZE, |out| (library.descriptor_write)(layout, out));
        let bytes = written.output.output();
        let mut read = Outcome::of(size_of::<Layout>(), |out| {
            (library.descriptor_read)(bytes, out)
        });
        tally.compare(read.answer == 0 && read.output.output() == layout, || {
            format!("write {layout:?}, then read: answer {}", read.answer)
        })?;
    }
    Flow::Continue(())
}

pub fn all_colors(library: &Library, tally: &mut Tally) -> Flow {
    for layout in layouts::chosen_in_all_colors() {
        compare_write(library, tally, layout, SIZE)?;
        compare_read(library, tally, &descriptor_of(layout))?;
    }
    Flow::Continue(())
}
