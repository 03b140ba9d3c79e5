//! Descriptors, byte by byte. One is accepted if it is what would be written for
//! the layout that it seems to state.

use reference::refusal::Refusal;

use crate::descriptor::SIZE;
use crate::guarded::Guarded;
use crate::layouts::{BYTES, DEPTH, MODEL, OFFSETS, PRIMARIES, RANGE};
use crate::library::Layout;
use crate::quantization::refused;

use super::layout::is_of_points;

/// The channels in the order of their samples.
pub type Order = fn(Layout) -> [usize; 3];

/// The lower and upper numbers of a channel.
pub type Limits = fn(Layout, usize) -> [u32; 2];

pub fn rising(layout: Layout) -> [usize; 3] {
    let mut channels = [0, 1, 2];
    channels.sort_by_key(|channel| layout[OFFSETS + channel]);
    channels
}

pub fn limits(layout: Layout, channel: usize) -> [u32; 2] {
    match (layout[RANGE], layout[MODEL], channel) {
        (1, 2, 1 | 2) => [16, 240].map(|limit| limit << (layout[DEPTH] - 8)),
        (1, _, _) => [16, 235].map(|limit| limit << (layout[DEPTH] - 8)),
        (2, _, _) => [0, (1 << layout[DEPTH]) - 1],
        _ => [0, 1 << layout[DEPTH]],
    }
}

/// Writes with the given order and limits.
pub fn written(layout: Layout, out: &mut Guarded<u8>, order: Order, limits: Limits) -> i64 {
    if !is_of_points(layout) {
        return refused(Refusal::Outside);
    }
    if out.length() != SIZE {
        return refused(Refusal::Length);
    }
    out.output().copy_from_slice(&formed(layout, order, limits));
    0
}

/// Reads with the given order and limits.
pub fn read(bytes: &[u8], out: &mut Guarded<u8>, order: Order, limits: Limits) -> i64 {
    let Ok(bytes) = <&[u8; SIZE]>::try_from(bytes) else {
        return refused(Refusal::Size);
    };
    // What does not depend on the samples is tried in a simple layout.
    let colored = [bytes[12], bytes[13], 1, 8, 3, 0, 8, 16, 0];
    let sized = [1, 1, 1, 8, bytes[20], 0, 8, 16, 0];
    let [like_colored, like_sized] = [colored, sized].map(|layout| formed(layout, order, limits));
    let layout = stated(bytes);
    if bytes[..12] != like_sized[..12] {
        refused(Refusal::Header)
    } else if !is_of_points(colored) || bytes[12..16] != like_colored[12..16] {
        refused(Refusal::Color)
    } else if !is_of_points(sized) || bytes[16..28] != like_sized[16..28] {
        refused(Refusal::TexelBlock)
    } else if !is_of_points(layout) || !same_fields(bytes, &formed(layout, order, limits)) {
        refused(Refusal::Sample)
    } else {
        let ranges = [1, 2, 3].map(|range| with_range(layout, range));
        match ranges
            .iter()
            .find(|&&layout| *bytes == formed(layout, order, limits))
        {
            Some(layout) => {
                out.output().copy_from_slice(layout);
                0
            }
            None => refused(Refusal::SampleRange),
        }
    }
}

/// The bytes that are written for a layout.
pub fn formed(layout: Layout, order: Order, limits: Limits) -> [u8; SIZE] {
    let mut bytes = [0; SIZE];
    bytes[0] = 76;
    bytes[8] = 1;
    bytes[10] = 72;
    bytes[12] = layout[MODEL];
    bytes[13] = layout[PRIMARIES];
    bytes[14] = 3;
    bytes[20] = layout[BYTES];
    for (sample, channel) in bytes[28..].chunks_mut(16).zip(order(layout)) {
        let [lower, upper] = limits(layout, channel);
        sample[0] = layout[OFFSETS + channel];
        sample[2] = layout[DEPTH] - 1;
        sample[3] = channel as u8;
        sample[8..12].copy_from_slice(&lower.to_le_bytes());
        sample[12..].copy_from_slice(&upper.to_le_bytes());
    }
    bytes
}

/// The layout that a descriptor states if it is one, but for its range: narrow.
pub fn stated(bytes: &[u8; SIZE]) -> Layout {
    let depth = bytes[30].wrapping_add(1);
    let mut layout = [bytes[12], bytes[13], 1, depth, bytes[20], 0, 0, 0, 0];
    for sample in bytes[28..].chunks(16) {
        if let channel @ 0..=2 = sample[3] {
            layout[OFFSETS + usize::from(channel)] = sample[0];
        }
    }
    layout
}

pub fn with_range(mut layout: Layout, range: u8) -> Layout {
    layout[RANGE] = range;
    layout
}

/// Whether all samples are alike but for lower and upper.
fn same_fields(one: &[u8; SIZE], other: &[u8; SIZE]) -> bool {
    one[28..]
        .chunks(16)
        .zip(other[28..].chunks(16))
        .all(|(one, other)| one[..8] == other[..8])
}
