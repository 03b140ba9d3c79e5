//! Every field of every layout.

use crate::layouts;
use crate::library::Library;
use crate::random::Random;
use crate::tally::{Flow, Tally};

use super::{compare_field_bytes, compare_field_code, count_of, CHANNELS};

/// The bytes that hold it, and the code in some.
pub fn every_layout(library: &Library, tally: &mut Tally) -> Flow {
    let mut random = Random::new();
    for layout in layouts::every() {
        for channel in CHANNELS {
            compare_field_bytes(library, tally, layout, channel)?;
            let bytes = random.next().to_le_bytes();
            let bytes = &bytes[..count_of(layout, channel)];
            compare_field_code(library, tally, layout, channel, bytes)?;
        }
    }
    Flow::Continue(())
}
