//! Descriptors of the Khronos Data Format: the paper's "Descriptor, 76 bytes".

use crate::layout::{Layout, Numbers};
use crate::quantization::{Kind, Range};
use crate::refusal::Refusal;

pub const SIZE: usize = 76;

/// The total size, zero for vendor and type, version 1, and the block size.
const HEADER: [u8; 12] = [76, 0, 0, 0, 0, 0, 0, 0, 1, 0, 72, 0];
const ITU: u8 = 3;
const SAMPLES: usize = 28;
const SAMPLE_SIZE: usize = 16;

/// What the sixteen bytes of a sample hold.
#[derive(Clone, Copy)]
struct Sample {
    offset: u16,
    /// The paper's n - 1.
    length: u8,
    channel: u8,
    position: [u8; 4],
    lower: u32,
    upper: u32,
}

/// The numbers of the layout that a descriptor states, whose points are their own.
pub fn read(bytes: &[u8]) -> Result<Numbers, Refusal> {
    if bytes.len() != SIZE {
        return Err(Refusal::Size);
    }
    if bytes[..12] != HEADER {
        return Err(Refusal::Header);
    }
    let [model, primaries, transfer, flags] = four(bytes, 12);
    if !matches!((model, primaries, transfer, flags), (1 | 2, 1..=4, ITU, 0)) {
        return Err(Refusal::Color);
    }
    let bytes_a_point = bytes[20];
    if four(bytes, 16) != [0; 4] || !matches!(bytes_a_point, 3..=8) || bytes[21..28] != [0; 7] {
        return Err(Refusal::TexelBlock);
    }
    let samples = [0, 1, 2].map(|index| Sample::read(&bytes[SAMPLES + index * SAMPLE_SIZE..]));
    let (depth, offsets) = fields(samples, bytes_a_point).ok_or(Refusal::Sample)?;
    // Only the range is left to be found. No numbers state two of them.
    Range::NUMBERED
        .map(|(range, _)| Layout {
            model,
            primaries,
            range,
            depth,
            bytes_a_point,
            offsets,
            sampling: 0,
        })
        .into_iter()
        .find(|&layout| samples.iter().all(|sample| sample.states_range_of(layout)))
        .map(Layout::numbers)
        .ok_or(Refusal::SampleRange)
}

/// Fills `out` with the descriptor of a layout. Groups have none.
pub fn write(layout: Numbers, out: &mut [u8]) -> Result<(), Refusal> {
    let layout = Layout::of_points(layout)?;
    if out.len() != SIZE {
        return Err(Refusal::Length);
    }
    let mut channels = [0, 1, 2];
    channels.sort_by_key(|&channel| layout.offsets[usize::from(channel)]);

    let mut bytes = HEADER.to_vec();
    bytes.extend([layout.model, layout.primaries, ITU, 0]);
    bytes.extend([0; 4]);
    bytes.extend([layout.bytes_a_point, 0, 0, 0, 0, 0, 0, 0]);
    for channel in channels {
        bytes.extend(Sample::of(layout, channel).bytes());
    }
    out.copy_from_slice(&bytes);
    Ok(())
}

/// The depth and the offsets by channel that three samples state, or none if an
/// offset, length, channel, position or the order is wrong.
fn fields(samples: [Sample; 3], bytes_a_point: u8) -> Option<(u8, [u8; 3])> {
    let length = samples[0].length;
    let alike = matches!(length, 7 | 9 | 11)
        && samples
            .iter()
            .all(|sample| sample.length == length && sample.position == [0; 4]);
    if !alike {
        return None;
    }
    // No field begins before the one ahead of it ends: so the offsets rise and
    // the fields do not overlap.
    let depth = length + 1;
    let mut end = 0;
    for sample in samples {
        if u32::from(sample.offset) < end {
            return None;
        }
        end = u32::from(sample.offset) + u32::from(depth);
    }
    if end > 8 * u32::from(bytes_a_point) {
        return None;
    }
    // Three samples hold three channels once each if each channel is found.
    let mut offsets = [0; 3];
    for (channel, offset) in (0..).zip(&mut offsets) {
        let sample = samples.iter().find(|sample| sample.channel == channel)?;
        *offset = u8::try_from(sample.offset).expect("an offset within a point");
    }
    Some((depth, offsets))
}

/// The lower and upper numbers of a channel: those of the layout's range.
fn limits(layout: Layout, channel: u8) -> (u32, u32) {
    let scale = layout.scale(channel);
    let s = 1 << (layout.depth - 8);
    match (scale.range, scale.kind) {
        (Range::Narrow, Kind::Brightness) => (16 * s, 235 * s),
        (Range::Narrow, Kind::Difference) => (16 * s, 240 * s),
        (Range::Full, _) => (0, (1 << layout.depth) - 1),
        (Range::LegacyFull, _) => (0, 1 << layout.depth),
    }
}

impl Sample {
    /// The sample of a channel, which must be 0, 1 or 2.
    fn of(layout: Layout, channel: u8) -> Sample {
        let (lower, upper) = limits(layout, channel);
        Sample {
            offset: layout.offsets[usize::from(channel)].into(),
            length: layout.depth - 1,
            channel,
            position: [0; 4],
            lower,
            upper,
        }
    }

    /// Whether lower and upper are those of the layout's range.
    fn states_range_of(self, layout: Layout) -> bool {
        (self.lower, self.upper) == limits(layout, self.channel)
    }

    fn read(bytes: &[u8]) -> Sample {
        Sample {
            offset: u16::from_le_bytes([bytes[0], bytes[1]]),
            length: bytes[2],
            channel: bytes[3],
            position: four(bytes, 4),
            lower: u32::from_le_bytes(four(bytes, 8)),
            upper: u32::from_le_bytes(four(bytes, 12)),
        }
    }

    fn bytes(self) -> Vec<u8> {
        let mut bytes = self.offset.to_le_bytes().to_vec();
        bytes.extend([self.length, self.channel]);
        bytes.extend(self.position);
        bytes.extend(self.lower.to_le_bytes());
        bytes.extend(self.upper.to_le_bytes());
        bytes
    }
}

/// The four bytes from a place.
fn four(bytes: &[u8], place: usize) -> [u8; 4] {
    [0, 1, 2, 3].map(|next| bytes[place + next])
}

#[cfg(test)]
mod tests {
    use super::{read, write, SIZE};
    use crate::layout::Numbers;
    use crate::refusal::Refusal;

    /// Y'CbCr in the older full range, 10 bits.
    const LEGACY: Numbers = [2, 4, 3, 10, 4, 0, 10, 20, 0];

    #[test]
    fn upper_states_the_older_full_range() {
        let mut bytes = [0xff; SIZE];
        assert_eq!(write(LEGACY, &mut bytes), Ok(()));
        for sample in bytes[28..].chunks(16) {
            assert_eq!(sample[8..], [0, 0, 0, 0, 0, 4, 0, 0]);
        }
        assert_eq!(read(&bytes), Ok(LEGACY));
        // One less in all three samples is full range, in one or two is none.
        bytes[40..42].copy_from_slice(&[0xff, 3]);
        assert_eq!(read(&bytes), Err(Refusal::SampleRange));
        bytes[56..58].copy_from_slice(&[0xff, 3]);
        assert_eq!(read(&bytes), Err(Refusal::SampleRange));
        bytes[72..74].copy_from_slice(&[0xff, 3]);
        assert_eq!(read(&bytes), Ok([2, 4, 2, 10, 4, 0, 10, 20, 0]));
    }
}
