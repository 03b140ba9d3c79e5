//! What the bytes of a field hold, for every depth and every place in a byte of the
//! field's lowest bit.

use crate::library::{Layout, Library};
use crate::random::Random;
use crate::tally::{Flow, Tally};

use super::{compare_field_code, count_of};

const RANDOM_BYTES: usize = 20_000;

/// Every byte, and every two bytes.
pub fn one_or_two_bytes(library: &Library, tally: &mut Tally) -> Flow {
    for (layout, channel) in each_place() {
        let count = count_of(layout, channel);
        let values = match count {
            1 => 1 << 8,
            2 => 1 << 16,
            _ => continue,
        };
        for value in 0..values {
            let bytes = &u32::to_le_bytes(value)[..count];
            compare_field_code(library, tally, layout, channel, bytes)?;
        }
    }
    Flow::Continue(())
}

/// Each bit alone, all but each bit, and random bytes.
pub fn three_bytes(library: &Library, tally: &mut Tally) -> Flow {
    let mut random = Random::new();
    for (layout, channel) in
        each_place().filter(|&(layout, channel)| count_of(layout, channel) == 3)
    {
        let single = (0..24).flat_map(|bit| [1 << bit, !(1 << bit)]);
        let numbers = single.chain((0..RANDOM_BYTES).map(|_| random.next()));
        for number in numbers {
            let bytes = &u32::to_le_bytes(number)[..3];
            compare_field_code(library, tally, layout, channel, bytes)?;
        }
    }
    Flow::Continue(())
}

/// A field of each depth from each bit of a byte on, in the midst of eight bytes. The
/// channels take turns.
fn each_place() -> impl Iterator<Item = (Layout, u8)> {
    [8, 10, 12].into_iter().flat_map(|depth| {
        (0..8).map(move |bit| {
            // The others lie at both ends of the point.
            let (below, offset, above) = (0, 24 + bit, 64 - depth);
            match bit % 3 {
                0 => ([2, 1, 1, depth, 8, offset, below, above, 0], 0),
                1 => ([1, 2, 2, depth, 8, above, offset, below, 0], 1),
                _ => ([2, 4, 3, depth, 8, below, above, offset, 0], 2),
            }
        })
    })
}
