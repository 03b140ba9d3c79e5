//! The codes of a line never fall as its values rise, from one infinity to the other.

use crate::guarded::Outcome;
use crate::layouts::{self, packed_length, points_each, RANGES};
use crate::library::{Layout, Library};
use crate::part::{part, Part};
use crate::quantization::rising::{never_fall, rising};
use crate::quantization::scale_of;
use crate::tally::{Flow, Tally};

use super::MOST_POINTS;

/// Wrong programs are tried with this alone, so that it is seen to fail.
pub const PART: Part = part("encode, codes never fall", in_lines);

fn in_lines(library: &Library, tally: &mut Tally) -> Flow {
    for model in [1, 2] {
        for range in RANGES {
            for depth in [8, 10, 12] {
                // Each code is two bytes of its own.
                let layout = [model, 4, range, depth, 6, 0, 16, 32, layouts::OWN];
                in_channels(library, tally, layout, [0, 1, 2], |point| {
                    let field = |place| u16::from_le_bytes([point[place], point[place + 1]]);
                    [0, 2, 4].map(|place| field(place).into())
                })?;
            }
        }
    }
    for layout in layouts::groups_of_each_range() {
        in_channels(library, tally, layout, [1, 0, 2, 0], |group| {
            [0, 1, 2, 3].map(|place| group[place].into())
        })?;
    }
    Flow::Continue(())
}

/// Points of three equal values, two such in a group, and the codes that they are made
/// of, by their channels.
fn in_channels<const CODES: usize>(
    library: &Library,
    tally: &mut Tally,
    layout: Layout,
    channels: [u8; CODES],
    codes_of: fn(&[u8]) -> [i64; CODES],
) -> Flow {
    let [model, _, range, depth, bytes, ..] = layout;
    let scales = [0, 1].map(|channel| scale_of([model, range, depth, channel]));
    let values = rising(&scales);
    let each = points_each(layout);
    let mut codes = vec![Vec::new(); CODES];
    for line in values.chunks(MOST_POINTS / each) {
        let points = line.len() * each;
        let elements: Vec<f32> = line
            .iter()
            .flat_map(|&value| vec![value; 3 * each])
            .collect();
        let outcome = Outcome::with_cuts(packed_length(layout, points), |out| {
            (library.encode_line)(layout, &elements, out)
        });
        tally.compare(outcome.answer == points as i64, || {
            format!(
                "encode {layout:?}, {points} points from {}: answer {}",
                line[0], outcome.answer
            )
        })?;
        for packed in outcome.output.elements().chunks(bytes.into()) {
            for (codes, code) in codes.iter_mut().zip(codes_of(packed)) {
                codes.push(code);
            }
        }
    }
    for (place, channel) in channels.into_iter().enumerate() {
        let scale = scale_of([model, range, depth, channel]);
        never_fall(tally, scale, &values, &codes[place], || {
            format!("encode {layout:?}, code {place}, channel {channel}")
        })?;
    }
    Flow::Continue(())
}
