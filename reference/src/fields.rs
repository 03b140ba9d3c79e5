//! One channel's field in a point: the bytes that hold it, and the code in them.

use std::ops::Range;

use crate::layout::{Layout, Numbers};
use crate::refusal::Refusal;

/// The places in a point of the bytes that hold a channel's field, from that of its
/// lowest bit to that of its highest.
pub fn bytes(layout: Numbers, channel: u8) -> Result<Range<usize>, Refusal> {
    Ok(holding(&bits(layout, channel)?))
}

/// The code of a channel, from only the bytes that hold its field.
pub fn code(layout: Numbers, channel: u8, given: &[u8]) -> Result<u16, Refusal> {
    let bits = bits(layout, channel)?;
    let bytes = holding(&bits);
    if given.len() != bytes.len() {
        return Err(Refusal::Length);
    }
    let is_set = |bit: usize| given[bit / 8 - bytes.start] >> (bit % 8) & 1 == 1;
    // The field's lowest bit stands for 1, each further one for twice as much.
    Ok((0..)
        .zip(bits)
        .filter(|&(_, bit)| is_set(bit))
        .map(|(power, _)| 1 << power)
        .sum())
}

/// The places of a field's bits in the point, where bit 0 is the lowest of the first
/// byte. Groups are refused.
fn bits(layout: Numbers, channel: u8) -> Result<Range<usize>, Refusal> {
    let layout = Layout::of_points(layout)?;
    let offset = layout.offsets.get(usize::from(channel));
    let lowest = usize::from(*offset.ok_or(Refusal::Outside)?);
    Ok(lowest..lowest + usize::from(layout.depth))
}

fn holding(bits: &Range<usize>) -> Range<usize> {
    let highest = bits.end - 1;
    bits.start / 8..highest / 8 + 1
}

#[cfg(test)]
mod tests {
    use super::{bytes, code};
    use crate::layout::Numbers;
    use crate::refusal::Refusal;

    /// 12 bits at bits 6, 24 and 36 of six bytes.
    const LAYOUT: Numbers = [1, 1, 2, 12, 6, 6, 24, 36, 0];

    #[test]
    fn a_field_in_three_bytes_and_in_two() {
        assert_eq!(bytes(LAYOUT, 0), Ok(0..3));
        assert_eq!(bytes(LAYOUT, 1), Ok(3..5));
        assert_eq!(bytes(LAYOUT, 2), Ok(4..6));
        // abc * 2^6 is 2af00.
        assert_eq!(code(LAYOUT, 0, &[0x00, 0xaf, 0x02]), Ok(0xabc));
        assert_eq!(code(LAYOUT, 0, &[0x3f, 0xaf, 0xfe]), Ok(0xabc));
        assert_eq!(code(LAYOUT, 1, &[0xbc, 0xfa]), Ok(0xabc));
        assert_eq!(code(LAYOUT, 2, &[0xcf, 0xab]), Ok(0xabc));
    }

    #[test]
    fn the_channel_is_refused_before_the_number_of_bytes() {
        assert_eq!(bytes(LAYOUT, 3), Err(Refusal::Outside));
        assert_eq!(code(LAYOUT, 3, &[]), Err(Refusal::Outside));
        assert_eq!(code(LAYOUT, 2, &[]), Err(Refusal::Length));
        assert_eq!(code(LAYOUT, 2, &[0; 3]), Err(Refusal::Length));
        assert_eq!(code(LAYOUT, 0, &[0; 2]), Err(Refusal::Length));
    }
}
