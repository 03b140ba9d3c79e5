//! Fields and lines must tell the same codes.

use crate::guarded::Outcome;
use crate::layouts::{self, bytes_a_point, DEPTH, MODEL, RANGE};
use crate::library::{Layout, Library, Slot, FLOAT};
use crate::lines::inputs;
use crate::random::Random;
use crate::tally::{Flow, Tally};

use super::CHANNELS;

/// A line of one to this many points for each layout.
const MOST_POINTS: usize = 5;

/// Of all layouts one in so many. It shares no factor with the 24 colors.
const ONE_IN: usize = 101;

/// What unpacking and decoding leave for each point and channel is the code in its
/// field and the float of that code. This compares the library with itself: the
/// reference has no part in it.
pub fn the_same_codes(library: &Library, tally: &mut Tally) -> Flow {
    let mut random = Random::new();
    for layout in layouts::every().step_by(ONE_IN) {
        let points = 1 + random.below(MOST_POINTS);
        let packed = inputs::packed(layout, points, &mut random);
        let codes = Outcome::of(3 * points, |out| {
            (library.unpack_line)(layout, &packed, out)
        });
        let values = Outcome::of(3 * points, |out| {
            (library.decode_line)(layout, &packed, out)
        });
        let fields = packed
            .chunks(bytes_a_point(layout))
            .flat_map(|point| CHANNELS.map(|channel| (point, channel)));
        let in_lines = codes.output.elements().iter().zip(values.output.elements());
        for ((point, channel), (&code, &value)) in fields.zip(in_lines) {
            let field = field(library, layout, channel, point);
            tally.compare(field == (code.into(), value), || {
                format!(
                    "{layout:?}, point {point:x?}, channel {channel}: code and float {field:x?}, \
                     in lines {:x?}",
                    (code, value)
                )
            })?;
        }
    }
    Flow::Continue(())
}

/// The code of a channel, from the bytes of its field alone, and the bits of its float.
fn field(library: &Library, layout: Layout, channel: u8, point: &[u8]) -> (i64, u32) {
    let told = Outcome::of(1, |out| (library.field_bytes)(layout, channel, out));
    let first = usize::from(told.output.elements()[0]);
    let bytes = point.iter().skip(first).take(told.answer as usize);
    let bytes: Vec<u8> = bytes.copied().collect();
    let code = (library.field_code)(layout, channel, &bytes);
    let setting = [layout[MODEL], layout[RANGE], layout[DEPTH], channel];
    let mut slot = Slot::default();
    // A refusal is told apart by the code.
    (library.dequantize)(setting, code as u16, &mut slot);
    (code, slot[FLOAT])
}
