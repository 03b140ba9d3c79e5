//! The samples of a descriptor: their order, their offsets and their ranges.

use crate::layouts::{self, DEPTH};
use crate::library::Library;
use crate::random::Random;
use crate::tally::{Flow, Tally};

use super::{compare_read, descriptor_of, Descriptor};

const SAMPLES: usize = 28;
const SAMPLE_SIZE: usize = 16;

/// Places in a sample.
const LENGTH: usize = 2;
const CHANNEL: usize = 3;
const LIMITS: usize = 8;

/// Lower and upper numbers that are stated.
const LIMITS_STATED: usize = 6;

const RANDOM_SAMPLES: usize = 100;

type Sample = [u8; SAMPLE_SIZE];

/// The numbers around every range's: each lower and upper number one more, one less
/// and as it is, in one sample, in two or in all three. One less than the older full
/// range's upper number is the full range's.
pub fn around_limits(library: &Library, tally: &mut Tally) -> Flow {
    for layout in layouts::chosen_in_all_colors().step_by(5) {
        let descriptor = descriptor_of(layout);
        for changed_samples in 1..8 {
            for change in 1..9 {
                let mut changed = descriptor;
                for index in (0..3).filter(|index| changed_samples >> index & 1 == 1) {
                    let mut sample = sample(&descriptor, index);
                    moved(&mut sample[LIMITS..LIMITS + 4], change % 3);
                    moved(&mut sample[LIMITS + 4..], change / 3);
                    put(&mut changed, index, sample);
                }
                compare_read(library, tally, &changed)?;
            }
        }
    }
    Flow::Continue(())
}

/// A number as it is, one more, or one less.
fn moved(bytes: &mut [u8], change: u32) {
    let number = u32::from_le_bytes([bytes[0], bytes[1], bytes[2], bytes[3]]);
    let number = match change {
        0 => number,
        1 => number.wrapping_add(1),
        _ => number.wrapping_sub(1),
    };
    bytes.copy_from_slice(&number.to_le_bytes());
}

/// Each of the three places holds each of the samples: swapped, repeated, left
/// out. Then the same of the channels and of the offsets alone.
pub fn orders(library: &Library, tally: &mut Tally) -> Flow {
    for layout in layouts::chosen() {
        let descriptor = descriptor_of(layout);
        let samples = [0, 1, 2].map(|index| sample(&descriptor, index));
        for moved in [0..SAMPLE_SIZE, CHANNEL..CHANNEL + 1, 0..2] {
            for choice in 0..27 {
                let mut changed = descriptor;
                for (index, from) in [choice % 3, choice / 3 % 3, choice / 9]
                    .into_iter()
                    .enumerate()
                {
                    let mut sample = samples[index];
                    sample[moved.clone()].copy_from_slice(&samples[from][moved.clone()]);
                    put(&mut changed, index, sample);
                }
                compare_read(library, tally, &changed)?;
            }
        }
    }
    Flow::Continue(())
}

/// Every 16-bit offset of each sample: 272 is not 16.
pub fn long_offsets(library: &Library, tally: &mut Tally) -> Flow {
    let descriptor = descriptor_of([2, 4, 1, 12, 8, 48, 16, 1, 0]);
    for index in 0..3 {
        let mut sample = sample(&descriptor, index);
        for offset in 0..=u16::MAX {
            let mut changed = descriptor;
            sample[..2].copy_from_slice(&offset.to_le_bytes());
            put(&mut changed, index, sample);
            compare_read(library, tally, &changed)?;
        }
    }
    Flow::Continue(())
}

/// Samples whose fields are each likely to be right, so that many descriptors
/// are accepted and the others have few mistakes.
pub fn random(library: &Library, tally: &mut Tally) -> Flow {
    let mut random = Random::new();
    for layout in layouts::chosen() {
        let descriptor = descriptor_of(layout);
        for _ in 0..RANDOM_SAMPLES {
            let mut changed = descriptor;
            for index in 0..3 {
                let mut sample = sample(&descriptor, index);
                if random.one_in(4) {
                    sample[0] = sample[0]
                        .wrapping_add(random.below(5) as u8)
                        .wrapping_sub(2);
                }
                if random.one_in(12) {
                    sample[LENGTH] = [7, 9, 11, 8][random.below(4)];
                }
                if random.one_in(12) {
                    sample[CHANNEL] = random.below(4) as u8;
                }
                if random.one_in(8) {
                    let limits = limits(layout[DEPTH])[random.below(LIMITS_STATED)];
                    sample[LIMITS..].copy_from_slice(&limits);
                }
                put(&mut changed, index, sample);
            }
            compare_read(library, tally, &changed)?;
        }
    }
    Flow::Continue(())
}

/// Each sample states narrow brightness, narrow difference, full, the older full, or
/// a range of 8 bits at another depth.
pub fn ranges(library: &Library, tally: &mut Tally) -> Flow {
    for layout in layouts::chosen() {
        let descriptor = descriptor_of(layout);
        let choices = limits(layout[DEPTH]);
        for choice in 0..LIMITS_STATED.pow(3) {
            let mut changed = descriptor;
            for index in 0..3 {
                let from = choice / LIMITS_STATED.pow(index as u32) % LIMITS_STATED;
                let mut sample = sample(&descriptor, index);
                sample[LIMITS..].copy_from_slice(&choices[from]);
                put(&mut changed, index, sample);
            }
            compare_read(library, tally, &changed)?;
        }
    }
    Flow::Continue(())
}

/// Lower and upper numbers as bytes: narrow brightness, narrow difference, full,
/// the older full, and of 8 bits narrow difference and the older full.
fn limits(depth: u8) -> [[u8; 8]; LIMITS_STATED] {
    let s = 1 << (depth - 8);
    [
        [16 * s, 235 * s],
        [16 * s, 240 * s],
        [0, (1 << depth) - 1],
        [0, 1 << depth],
        [16, 240],
        [0, 256],
    ]
    .map(|[lower, upper]: [u64; 2]| (upper << 32 | lower).to_le_bytes())
}

fn sample(descriptor: &Descriptor, index: usize) -> Sample {
    let mut sample = [0; SAMPLE_SIZE];
    sample.copy_from_slice(&descriptor[SAMPLES + index * SAMPLE_SIZE..][..SAMPLE_SIZE]);
    sample
}

fn put(descriptor: &mut Descriptor, index: usize, sample: Sample) {
    descriptor[SAMPLES + index * SAMPLE_SIZE..][..SAMPLE_SIZE].copy_from_slice(&sample);
}
