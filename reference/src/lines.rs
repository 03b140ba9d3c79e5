//! Lines of points, or of groups of two that share their colour: packed bytes, codes and
//! floats.
//!
//! Each function makes its whole output before it stores any of it, so nothing
//! is written on a refusal.

use crate::float;
use crate::groups;
use crate::layout::{Layout, Numbers};
use crate::quantization::{self, Quantized};
use crate::refusal::Refusal;

pub const MOST_POINTS: usize = 4096;

/// What is answered where codes are clamped: the count of points, and how many of the
/// line's values were cut.
#[derive(Clone, Copy, Debug, Default, PartialEq, Eq)]
pub struct Counts {
    pub points: usize,
    pub cuts: usize,
}

/// Fills `codes` from packed points, three codes a point. Answers the count of
/// points, as the other lines do.
pub fn unpack_line(layout: Numbers, packed: &[u8], codes: &mut [u16]) -> Result<usize, Refusal> {
    let layout = Layout::new(layout)?;
    let count = count(layout, packed.len(), codes.len())?;
    codes.copy_from_slice(&unpacked(layout, packed));
    Ok(count)
}

/// Fills `packed` with the points that hold these codes.
pub fn pack_line(layout: Numbers, codes: &[u16], packed: &mut [u8]) -> Result<usize, Refusal> {
    let layout = Layout::new(layout)?;
    pairs(layout, codes.len())?;
    let count = count(layout, packed.len(), codes.len())?;
    let codes = looked_at(layout, codes);
    if codes
        .iter()
        .any(|&code| u64::from(code) > layout.greatest_code())
    {
        return Err(Refusal::CodeTooHigh);
    }
    packed.copy_from_slice(&made(layout, &codes));
    Ok(count)
}

/// Fills `values` with the bits of the floats of packed points, three floats a point.
pub fn decode_line(layout: Numbers, packed: &[u8], values: &mut [u32]) -> Result<usize, Refusal> {
    let layout = Layout::new(layout)?;
    let count = count(layout, packed.len(), values.len())?;
    values.copy_from_slice(&floats(layout, packed));
    Ok(count)
}

/// The bits of the three floats of one point: a line of exactly one point; any
/// other length is refused, and so are groups.
pub fn decode_point(layout: Numbers, bytes: &[u8]) -> Result<[u32; 3], Refusal> {
    let layout = Layout::of_points(layout)?;
    if bytes.len() != layout.point_bytes() {
        return Err(Refusal::Length);
    }
    let floats = floats(layout, bytes);
    Ok(floats.try_into().expect("a point has three floats"))
}

/// Fills `packed` with the points that hold the codes of these floats, which are
/// given by their bits. The places that are cut are those that are looked at and where
/// a value by itself is.
pub fn encode_line(layout: Numbers, values: &[u32], packed: &mut [u8]) -> Result<Counts, Refusal> {
    let layout = Layout::new(layout)?;
    pairs(layout, values.len())?;
    let count = count(layout, packed.len(), values.len())?;
    let quantized = looked_at(layout, values)
        .into_iter()
        .zip(channels(layout).iter().cycle())
        .map(|(bits, &channel)| quantization::quantized(layout.scale(channel), bits))
        .collect::<Result<Vec<Quantized>, Refusal>>()?;
    let codes: Vec<u16> = quantized.iter().map(|value| value.code).collect();
    packed.copy_from_slice(&made(layout, &codes));
    Ok(Counts {
        points: count,
        cuts: cuts(&quantized),
    })
}

/// As a line of exactly one point; any other length is refused, and so are groups.
pub fn encode_point(
    layout: Numbers,
    values: [u32; 3],
    packed: &mut [u8],
) -> Result<Counts, Refusal> {
    Layout::of_points(layout)?;
    encode_line(layout, &values, packed)
}

/// How many of these were cut.
pub fn cuts(quantized: &[Quantized]) -> usize {
    quantized.iter().filter(|value| value.cut).count()
}

/// Refuses an odd count of whole points where groups are to be made of them.
fn pairs(layout: Layout, elements: usize) -> Result<(), Refusal> {
    let points = elements / 3;
    if elements.is_multiple_of(3) && !points.is_multiple_of(layout.points_each()) {
        Err(Refusal::OddCount)
    } else {
        Ok(())
    }
}

/// The count of points, for a line with so many packed bytes and, on its other
/// side, so many codes or floats.
fn count(layout: Layout, packed_bytes: usize, elements: usize) -> Result<usize, Refusal> {
    let count = packed_bytes / layout.point_bytes() * layout.points_each();
    let whole = packed_bytes.is_multiple_of(layout.point_bytes());
    if whole && count <= MOST_POINTS && elements == 3 * count {
        Ok(count)
    } else {
        Err(Refusal::Length)
    }
}

/// The channels of the elements that make a point, or a group.
fn channels(layout: Layout) -> &'static [u8] {
    if layout.shares_color() {
        groups::LOOKED_AT
    } else {
        &[0, 1, 2]
    }
}

/// The elements of a line, three a point, of which points or groups are made.
fn looked_at<T: Copy>(layout: Layout, elements: &[T]) -> Vec<T> {
    let looked_at = channels(layout).len();
    elements
        .chunks(3 * layout.points_each())
        .flat_map(|elements| &elements[..looked_at])
        .copied()
        .collect()
}

/// The packed points or groups that are made of these codes.
pub(crate) fn made(layout: Layout, codes: &[u16]) -> Vec<u8> {
    let codes = codes.chunks(channels(layout).len());
    if layout.shares_color() {
        codes.flat_map(groups::bytes).collect()
    } else {
        codes
            .flat_map(|codes| bytes(layout, point(layout, codes)))
            .collect()
    }
}

/// The number whose fields are the codes and whose other bits are zero.
fn point(layout: Layout, codes: &[u16]) -> u64 {
    codes
        .iter()
        .zip(layout.offsets)
        .map(|(&code, offset)| u64::from(code) << offset)
        .sum()
}

/// The codes of packed points or groups, three a point.
pub(crate) fn unpacked(layout: Layout, packed: &[u8]) -> Vec<u16> {
    let packed = packed.chunks(layout.point_bytes());
    if layout.shares_color() {
        packed.flat_map(groups::codes).collect()
    } else {
        packed
            .flat_map(|bytes| fields(layout, number(bytes)))
            .collect()
    }
}

/// The codes in a point's fields, in channel order.
fn fields(layout: Layout, point: u64) -> [u16; 3] {
    layout
        .offsets
        .map(|offset| (point >> offset & layout.greatest_code()) as u16)
}

/// The bits of the floats nearest the values of the codes of packed points or groups.
fn floats(layout: Layout, packed: &[u8]) -> Vec<u32> {
    unpacked(layout, packed)
        .into_iter()
        .zip([0, 1, 2].into_iter().cycle())
        .map(|(code, channel)| float::nearest(layout.scale(channel).value(code.into())))
        .collect()
}

/// The little-endian number of a point's bytes.
fn number(bytes: &[u8]) -> u64 {
    bytes
        .iter()
        .rev()
        .fold(0, |number, &byte| number << 8 | u64::from(byte))
}

/// The bytes of a point, from the lowest.
fn bytes(layout: Layout, point: u64) -> impl Iterator<Item = u8> {
    (0..layout.point_bytes()).map(move |place| (point >> (8 * place)) as u8)
}

#[cfg(test)]
mod tests {
    use super::{
        decode_line, decode_point, encode_line, encode_point, pack_line, unpack_line, Counts,
        MOST_POINTS,
    };
    use crate::layout::Numbers;
    use crate::refusal::Refusal;

    /// Narrow Y'CbCr of 8 bits, a byte each.
    const LAYOUT: Numbers = [2, 1, 1, 8, 3, 0, 8, 16, 0];

    /// The same in groups.
    const GROUPS: Numbers = [2, 1, 1, 8, 4, 0, 0, 0, 1];

    const NAN: u32 = 0x7fc0_0000;

    fn counts(points: usize, cuts: usize) -> Result<Counts, Refusal> {
        Ok(Counts { points, cuts })
    }

    #[test]
    fn the_cuts_of_a_line() {
        // 16 + 219 * 2 = 454 and 128 - 224 = -96; 235, 240 and 16 are no ends.
        let beyond = [2.0, -1.0, f32::INFINITY].map(f32::to_bits);
        let inside = [1.0, 0.5, -0.5].map(f32::to_bits);
        let mut packed = [0; 6];
        let values = [inside, beyond].concat();
        assert_eq!(encode_line(LAYOUT, &values, &mut packed), counts(2, 3));
        assert_eq!(packed, [235, 240, 16, 254, 1, 254]);
        assert_eq!(encode_point(LAYOUT, inside, &mut packed[..3]), counts(1, 0));
        assert_eq!(encode_line(LAYOUT, &[], &mut []), counts(0, 0));
        let refused = encode_line(LAYOUT, &beyond, &mut packed);
        assert_eq!(refused, Err(Refusal::Length));
    }

    #[test]
    fn a_group_has_the_colour_of_its_first_point() {
        let (mut codes, mut values, mut packed) = ([0; 6], [0; 6], [0; 4]);
        assert_eq!(unpack_line(GROUPS, &[240, 235, 16, 126], &mut codes), Ok(2));
        assert_eq!(codes, [235, 240, 16, 126, 240, 16]);
        assert_eq!(decode_line(GROUPS, &[240, 235, 16, 16], &mut values), Ok(2));
        let decoded = [1.0, 0.5, -0.5, 0.0, 0.5, -0.5].map(f32::to_bits);
        assert_eq!(values, decoded);
        assert_eq!(encode_line(GROUPS, &decoded, &mut packed), counts(2, 0));
        assert_eq!(packed, [240, 235, 16, 16]);
        // The second point's colour is not looked at, its brightness is.
        codes[4..].fill(u16::MAX);
        assert_eq!(pack_line(GROUPS, &codes, &mut packed), Ok(2));
        assert_eq!(packed, [240, 235, 16, 126]);
        codes[3] = 256;
        let refused = pack_line(GROUPS, &codes, &mut packed);
        assert_eq!(refused, Err(Refusal::CodeTooHigh));
        values[4..].copy_from_slice(&[NAN, f32::INFINITY.to_bits()]);
        values[3] = 2f32.to_bits();
        assert_eq!(encode_line(GROUPS, &values, &mut packed), counts(2, 1));
        assert_eq!(packed, [240, 235, 16, 254]);
        values[3] = NAN;
        let refused = encode_line(GROUPS, &values, &mut packed);
        assert_eq!(refused, Err(Refusal::NotANumber));
    }

    #[test]
    fn odd_counts_before_lengths() {
        let codes = vec![u16::MAX; 3 * MOST_POINTS + 6];
        let pack = |elements| pack_line(GROUPS, &codes[..elements], &mut []);
        assert_eq!(pack(3), Err(Refusal::OddCount));
        assert_eq!(pack(4), Err(Refusal::Length));
        assert_eq!(pack(3 * MOST_POINTS + 3), Err(Refusal::OddCount));
        assert_eq!(pack(3 * MOST_POINTS + 6), Err(Refusal::Length));
        assert_eq!(pack(0), Ok(0));
        let odd = encode_line(GROUPS, &[NAN; 9], &mut []);
        assert_eq!(odd, Err(Refusal::OddCount));
        let short = unpack_line(GROUPS, &[0; 6], &mut [0; 9]);
        assert_eq!(short, Err(Refusal::Length));
        // A single point is outside, whatever its length.
        let point = encode_point(GROUPS, [NAN; 3], &mut []);
        assert_eq!(point, Err(Refusal::Outside));
        assert_eq!(decode_point(GROUPS, &[0; 4]), Err(Refusal::Outside));
    }
}
