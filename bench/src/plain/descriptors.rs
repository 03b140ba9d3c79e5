//! Descriptors in plain Rust.

use super::layout::{self, Numbers};
use super::refusal::{COLOR, HEADER, LENGTH, NO_RANGE, OUTSIDE, PLANES, SAMPLE, SIZE};

pub const BYTES: usize = 76;

/// Bytes 0 to 11: total size, vendor and type, version, block size.
const FRONT: [u8; 12] = [76, 0, 0, 0, 0, 0, 0, 0, 1, 0, 72, 0];
const ITU: u8 = 3;
const SAMPLES: usize = 28;
const SAMPLE_BYTES: usize = 16;

pub fn read(bytes: &[u8], layout: &mut Numbers) -> i64 {
    match read_into(bytes, layout) {
        Ok(()) => 0,
        Err(refusal) => refusal,
    }
}

pub fn write(layout: Numbers, out: &mut [u8]) -> i64 {
    if !layout::valid_points(layout) {
        return OUTSIDE;
    }
    let Ok(out) = <&mut [u8; BYTES]>::try_from(out) else {
        return LENGTH;
    };
    let [model, primaries, range, depth, bytes, first, second, third, _] = layout;
    let offsets = [first, second, third];
    *out = [0; BYTES];
    out[..12].copy_from_slice(&FRONT);
    out[12..15].copy_from_slice(&[model, primaries, ITU]);
    out[20] = bytes;
    let mut channels = [0, 1, 2];
    channels.sort_unstable_by_key(|&channel| offsets[channel]);
    for (channel, sample) in channels
        .into_iter()
        .zip(out[SAMPLES..].chunks_exact_mut(SAMPLE_BYTES))
    {
        let [lower, upper] = limits(range, depth, model == 2 && channel > 0);
        sample[0] = offsets[channel];
        sample[2] = depth - 1;
        sample[3] = channel as u8;
        sample[8..12].copy_from_slice(&lower.to_le_bytes());
        sample[12..].copy_from_slice(&upper.to_le_bytes());
    }
    0
}

fn read_into(bytes: &[u8], layout: &mut Numbers) -> Result<(), i64> {
    let bytes = <&[u8; BYTES]>::try_from(bytes).map_err(|_| SIZE)?;
    if bytes[..12] != FRONT {
        return Err(HEADER);
    }
    let [model, primaries] = [bytes[12], bytes[13]];
    if !matches!(model, 1 | 2) || !matches!(primaries, 1..=4) || bytes[14..16] != [ITU, 0] {
        return Err(COLOR);
    }
    let size = bytes[20];
    if bytes[16..20] != [0; 4] || !matches!(size, 3..=8) || bytes[21..28] != [0; 7] {
        return Err(PLANES);
    }
    let (depth, offsets) = fields(&bytes[SAMPLES..], size).ok_or(SAMPLE)?;
    // No numbers state two ranges.
    let [mut narrow, mut full, mut legacy] = [true; 3];
    for sample in bytes[SAMPLES..].chunks_exact(SAMPLE_BYTES) {
        let stated = [number(sample, 8), number(sample, 12)];
        narrow &= stated == limits(1, depth, (model == 2) & (sample[3] > 0));
        full &= stated == limits(2, depth, false);
        legacy &= stated == limits(3, depth, false);
    }
    let range = u8::from(narrow) + 2 * u8::from(full) + 3 * u8::from(legacy);
    if range == 0 {
        return Err(NO_RANGE);
    }
    let [first, second, third] = offsets;
    *layout = [
        model, primaries, range, depth, size, first, second, third, 0,
    ];
    Ok(())
}

/// The depth, and the offsets by channel, if the samples tell them.
fn fields(samples: &[u8], size: u8) -> Option<(u8, [u8; 3])> {
    let length = samples[2];
    if !matches!(length, 7 | 9 | 11) {
        return None;
    }
    // The offset of each channel in a byte of one number.
    let mut offsets: u32 = 0;
    let mut channels = 0;
    let mut end = 0;
    let mut right = true;
    for sample in samples.chunks_exact(SAMPLE_BYTES) {
        let offset = u32::from(u16::from_le_bytes([sample[0], sample[1]]));
        let channel = sample[3];
        right &= sample[2] == length;
        right &= channel <= 2;
        right &= number(sample, 4) == 0;
        right &= offset >= end;
        end = offset + u32::from(length) + 1;
        channels |= 1 << (channel & 3);
        offsets |= offset << (8 * (channel & 3));
    }
    right &= channels == 0b111;
    right &= end <= 8 * u32::from(size);
    let [first, second, third, _] = offsets.to_le_bytes();
    right.then_some((length + 1, [first, second, third]))
}

/// The lower and the upper number.
fn limits(range: u8, depth: u8, difference: bool) -> [u32; 2] {
    match range {
        1 => {
            let upper = 235 + 5 * u32::from(difference);
            [16 << (depth - 8), upper << (depth - 8)]
        }
        2 => [0, (1 << depth) - 1],
        _ => [0, 1 << depth],
    }
}

fn number(bytes: &[u8], place: usize) -> u32 {
    let bytes = &bytes[place..place + 4];
    u32::from_le_bytes([bytes[0], bytes[1], bytes[2], bytes[3]])
}
