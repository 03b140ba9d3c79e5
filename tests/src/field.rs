//! The field of a channel: one comparison of each function with the reference, and
//! the parts that choose what to compare.

use reference::fields;

use crate::guarded::{Guarded, Outcome};
use crate::library::{Layout, Library};
use crate::lines::answer;
use crate::part::{part, Part};
use crate::quantization::refused;
use crate::tally::{Flow, Tally};

mod examples;
mod in_lines;
mod places;
mod refusals;
mod values;

/// The parts that try a library, the quick ones first: most wrong programs are
/// caught by them.
pub const PARTS: &[Part] = &[
    part("fields, worked out by hand", examples::worked_out),
    part("fields, refused by hand", examples::refused_by_hand),
    part("fields, numbers of bytes", refusals::lengths),
    part("fields, every channel", refusals::channels),
    part("fields, three bytes", values::three_bytes),
    part("fields, as lines have them", in_lines::the_same_codes),
    part("fields, layouts outside", refusals::layouts_outside),
    part("fields, every one or two bytes", values::one_or_two_bytes),
    part("fields, every layout", places::every_layout),
];

const CHANNELS: [u8; 3] = [0, 1, 2];

pub fn expected_field_bytes(layout: Layout, channel: u8, first: &mut Guarded<u8>) -> i64 {
    match fields::bytes(layout, channel) {
        Ok(bytes) => {
            first.output().copy_from_slice(&[bytes.start as u8]);
            bytes.len() as i64
        }
        Err(refusal) => refused(refusal),
    }
}

pub fn expected_field_code(layout: Layout, channel: u8, bytes: &[u8]) -> i64 {
    answer(fields::code(layout, channel, bytes).map(usize::from))
}

/// The place of the first byte lies among guards, and is kept on a refusal.
fn compare_field_bytes(library: &Library, tally: &mut Tally, layout: Layout, channel: u8) -> Flow {
    let outcome = Outcome::of(1, |first| (library.field_bytes)(layout, channel, first));
    let expected = Outcome::of(1, |first| expected_field_bytes(layout, channel, first));
    tally.compare(outcome == expected, || {
        format!(
            "field bytes {layout:?}, channel {channel}: {}",
            outcome.unlike(&expected)
        )
    })
}

fn compare_field_code(
    library: &Library,
    tally: &mut Tally,
    layout: Layout,
    channel: u8,
    bytes: &[u8],
) -> Flow {
    let code = (library.field_code)(layout, channel, bytes);
    let expected = expected_field_code(layout, channel, bytes);
    tally.compare(code == expected, || {
        format!(
            "field code {layout:?}, channel {channel}, {} bytes, {:x?}: answer {code}, \
             must be {expected}",
            bytes.len(),
            &bytes[..bytes.len().min(12)]
        )
    })
}

/// How many bytes hold the field of a channel of a layout that is known to be valid.
fn count_of(layout: Layout, channel: u8) -> usize {
    let bytes = fields::bytes(layout, channel);
    bytes
        .expect("a layout and a channel inside the paper")
        .len()
}
