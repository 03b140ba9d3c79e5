//! Valid descriptors with bytes changed, and bytes that are no descriptors.

use crate::layouts;
use crate::library::Library;
use crate::random::Random;
use crate::tally::{Flow, Tally};

use super::{compare_read, descriptor_of, Descriptor, SIZE};

/// Times that each two bytes are changed together.
const PAIRED_CHANGES: usize = 4;
const RANDOM_DESCRIPTORS: usize = 20_000;

/// All other values of all bytes.
pub fn single(library: &Library, tally: &mut Tally) -> Flow {
    for descriptor in descriptors() {
        compare_read(library, tally, &descriptor)?;
        for place in 0..SIZE {
            for other in 1..=u8::MAX {
                let mut changed = descriptor;
                changed[place] = changed[place].wrapping_add(other);
                compare_read(library, tally, &changed)?;
            }
        }
    }
    Flow::Continue(())
}

/// Each two bytes, so that any two refusals compete.
pub fn pairs(library: &Library, tally: &mut Tally) -> Flow {
    let mut random = Random::new();
    for descriptor in descriptors() {
        for first in 0..SIZE {
            for second in first + 1..SIZE {
                for _ in 0..PAIRED_CHANGES {
                    let mut changed = descriptor;
                    changed[first] = random.next() as u8;
                    changed[second] = random.next() as u8;
                    compare_read(library, tally, &changed)?;
                }
            }
        }
    }
    Flow::Continue(())
}

/// Random bytes from each place on, up to which the descriptor is valid.
pub fn random(library: &Library, tally: &mut Tally) -> Flow {
    let mut random = Random::new();
    for (descriptor, valid) in descriptors()
        .cycle()
        .zip((0..=SIZE).cycle())
        .take(RANDOM_DESCRIPTORS)
    {
        let mut changed = descriptor;
        changed[valid..].fill_with(|| random.next() as u8);
        compare_read(library, tally, &changed)?;
    }
    Flow::Continue(())
}

fn descriptors() -> impl Iterator<Item = Descriptor> + Clone {
    let layouts: Vec<_> = layouts::one_of_each_size().collect();
    layouts.into_iter().map(descriptor_of)
}
