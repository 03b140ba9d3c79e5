//! Descriptors: one comparison of each function with the reference, and the
//! parts that choose what to compare.

use reference::descriptor;

use crate::guarded::{Guarded, Outcome};
use crate::library::{Layout, Library};
use crate::part::{part, Part};
use crate::quantization::refused;
use crate::tally::{Flow, Tally};

mod changes;
mod examples;
mod lengths;
mod printed;
mod samples;
mod shapes;

/// The parts that try a library, the quick ones first: most wrong programs are
/// caught by them.
pub const PARTS: &[Part] = &[
    part("descriptors, written out by hand", examples::written_out),
    part("descriptors, all colors", shapes::all_colors),
    part("read, lengths", lengths::read),
    part("write, layouts outside and lengths", lengths::write),
    part("printed descriptors", printed::document_002),
    part("read, samples in all orders", samples::orders),
    part("read, single bytes changed", changes::single),
    part("read, bytes changed in pairs", changes::pairs),
    part("read, random bytes", changes::random),
    part("read, random samples", samples::random),
    part("read, ranges mixed", samples::ranges),
    part("read, numbers around a range's", samples::around_limits),
    part("read, offsets of 16 bits", samples::long_offsets),
    part("descriptors, every layout", shapes::every_layout),
];

pub const SIZE: usize = descriptor::SIZE;

type Descriptor = [u8; SIZE];

/// The reference's answer. The output has the length of a layout.
pub fn expected_read(bytes: &[u8], layout: &mut Guarded<u8>) -> i64 {
    match descriptor::read(bytes) {
        Ok(numbers) => {
            layout.output().copy_from_slice(&numbers);
            0
        }
        Err(refusal) => refused(refusal),
    }
}

pub fn expected_write(layout: Layout, out: &mut Guarded<u8>) -> i64 {
    match descriptor::write(layout, out.output()) {
        Ok(()) => 0,
        Err(refusal) => refused(refusal),
    }
}

fn compare_read(library: &Library, tally: &mut Tally, bytes: &[u8]) -> Flow {
    let length = size_of::<Layout>();
    let outcome = Outcome::of(length, |out| (library.descriptor_read)(bytes, out));
    let expected = Outcome::of(length, |out| expected_read(bytes, out));
    tally.compare(outcome == expected, || {
        format!("read {bytes:x?}: {}", outcome.unlike(&expected))
    })
}

fn compare_write(library: &Library, tally: &mut Tally, layout: Layout, length: usize) -> Flow {
    let outcome = Outcome::of(length, |out| (library.descriptor_write)(layout, out));
    let expected = Outcome::of(length, |out| expected_write(layout, out));
    tally.compare(outcome == expected, || {
        format!(
            "write {layout:?} to {length} bytes: {}",
            outcome.unlike(&expected)
        )
    })
}

/// The descriptor of a layout that is known to have one.
fn descriptor_of(layout: Layout) -> Descriptor {
    let mut bytes = [0; SIZE];
    descriptor::write(layout, &mut bytes).expect("a layout inside the paper");
    bytes
}
