//! Codes and floats in every place of a line: those that are refused, and those
//! at the edge.

use crate::guarded::Outcome;
use crate::layouts::{self, packed_length, points_each, DEPTH};
use crate::library::{Layout, Library};
use crate::quantization::floats::{around_codes, around_ends, around_ties, at_every_exponent};
use crate::quantization::scale_of;
use crate::random::Random;
use crate::tally::{Flow, Tally};

use super::inputs::{self, greatest_code};
use super::{
    compare_decode_line, compare_decode_point, compare_encode_line, compare_encode_point,
    compare_pack_line, compare_unpack_line, expected_pack_line, MOST_POINTS,
};

/// Not-a-numbers: quiet, negative, and signalling with the lowest bit, with the
/// highest, and with all.
const NOT_A_NUMBERS: [u32; 5] = [
    0x7fc0_0000,
    0xffc0_0000,
    0x7f80_0001,
    0xffa0_0000,
    0x7fbf_ffff,
];

/// Every code of every channel, on every scale, and with every size of a point: those
/// that a range never makes are decoded, unpacked and packed as the others are. The
/// lines to read are packed by the reference.
pub fn every_code(library: &Library, tally: &mut Tally) -> Flow {
    for layout in layouts::all_scales_and_groups() {
        let codes = inputs::every_code(layout);
        let length = packed_length(layout, codes.len() / 3);
        let packed = Outcome::of(length, |out| expected_pack_line(layout, &codes, out));
        let packed = packed.output.elements();
        compare_decode_line(library, tally, layout, packed, codes.len())?;
        compare_unpack_line(library, tally, layout, packed, codes.len())?;
        compare_pack_line(library, tally, layout, &codes, length)?;
        for point in packed.chunks(packed_length(layout, 1)) {
            compare_decode_point(library, tally, layout, point)?;
        }
    }
    Flow::Continue(())
}

/// The greatest code, the numbers above it, and each higher bit alone.
pub fn codes(library: &Library, tally: &mut Tally) -> Flow {
    let mut random = Random::new();
    for layout in layouts::chosen_for_lines() {
        let greatest = greatest_code(layout);
        let higher_bits = (layout[DEPTH]..16).map(|bit| 1 << bit);
        let numbers: Vec<u16> = [greatest, greatest + 2, u16::MAX]
            .into_iter()
            .chain(higher_bits)
            .collect();
        for points in lengths(layout) {
            let mut codes = inputs::codes(layout, points, &mut random);
            for place in places(layout, points) {
                for &number in &numbers {
                    let before = codes[place];
                    codes[place] = number;
                    let length = packed_length(layout, points);
                    compare_pack_line(library, tally, layout, &codes, length)?;
                    codes[place] = before;
                }
            }
        }
    }
    Flow::Continue(())
}

pub fn not_a_numbers(library: &Library, tally: &mut Tally) -> Flow {
    compare_at_places(library, tally, &NOT_A_NUMBERS.map(f32::from_bits))
}

/// Infinities, the largest finite floats, the smallest, and both zeros.
pub fn infinities(library: &Library, tally: &mut Tally) -> Flow {
    let least = f32::from_bits(1);
    let magnitudes = [f32::INFINITY, f32::MAX, least, 0.0];
    compare_at_places(library, tally, &magnitudes)?;
    compare_at_places(library, tally, &magnitudes.map(|value| -value))
}

/// The floats around the ends of every scale, as a line, and each as a point.
pub fn ends(library: &Library, tally: &mut Tally) -> Flow {
    for layout in layouts::all_scales_and_groups() {
        let [model, _, range, depth, ..] = layout;
        let points: Vec<[f32; 3]> = [0, 1]
            .into_iter()
            .flat_map(|channel| around_ends(scale_of([model, range, depth, channel])))
            .flat_map(|bits| vec![[f32::from_bits(bits); 3]; points_each(layout)])
            .collect();
        let length = packed_length(layout, points.len());
        compare_encode_line(library, tally, layout, points.as_flattened(), length)?;
        for point in points {
            compare_encode_point(library, tally, layout, point, packed_length(layout, 1))?;
        }
    }
    Flow::Continue(())
}

/// The floats around every tie and every code of both kinds, and at every
/// exponent, in all three channels.
pub fn ties_and_exponents(library: &Library, tally: &mut Tally) -> Flow {
    for layout in on_each_scale().chain(layouts::groups_of_each_range()) {
        let values = in_all_channels(layout);
        for line in values.chunks(3 * MOST_POINTS) {
            let length = packed_length(layout, line.len() / 3);
            compare_encode_line(library, tally, layout, line, length)?;
        }
    }
    Flow::Continue(())
}

/// A layout of points of each model, range and depth.
fn on_each_scale() -> impl Iterator<Item = Layout> {
    [8, 10, 12]
        .into_iter()
        .map(|depth| [1, 4, 1, depth, 8, 64 - depth, 0, depth + 5, layouts::OWN])
        .flat_map(layouts::on_every_scale)
}

/// Points whose three floats are the same one: those where rounding could go
/// wrong on the scales of channels 0 and 1, and so on that of channel 2. In groups both
/// points are the same.
fn in_all_channels(layout: Layout) -> Vec<f32> {
    let [model, _, range, depth, ..] = layout;
    let scales = [0, 1].map(|channel| scale_of([model, range, depth, channel]));
    scales
        .into_iter()
        .flat_map(|scale| around_ties(scale).chain(around_codes(scale)))
        .chain(at_every_exponent())
        .map(f32::from_bits)
        .filter(|value| !value.is_nan())
        .flat_map(|value| vec![value; 3 * points_each(layout)])
        .collect()
}

/// Each float in each place of lines and of points.
fn compare_at_places(library: &Library, tally: &mut Tally, tried: &[f32]) -> Flow {
    let mut random = Random::new();
    for layout in layouts::chosen_for_lines() {
        for points in lengths(layout) {
            let length = packed_length(layout, points);
            let mut values = inputs::values(points, &mut random);
            for place in places(layout, points) {
                for &value in tried {
                    let before = values[place];
                    values[place] = value;
                    compare_encode_line(library, tally, layout, &values, length)?;
                    if let Ok(point) = <[f32; 3]>::try_from(&values[..]) {
                        compare_encode_point(library, tally, layout, point, length)?;
                    }
                    values[place] = before;
                }
            }
        }
    }
    Flow::Continue(())
}

/// Short lines, of which some are of whole groups, and for some layouts the longest.
fn lengths(layout: Layout) -> impl Iterator<Item = usize> {
    let longest = layouts::one_of_each_size()
        .step_by(4)
        .chain(layouts::groups_of_each_range())
        .any(|some| some[DEPTH..] == layout[DEPTH..]);
    [1, 2, 3, 8 + points_each(layout)]
        .into_iter()
        .chain(longest.then_some(MOST_POINTS))
}

/// The elements of the first, the middle and the last point or group, or of a long line
/// the first, the middle and the last element, and the first of the last point.
fn places(layout: Layout, points: usize) -> impl Iterator<Item = usize> {
    let (each, all) = (3 * points_each(layout), 3 * points);
    let mut places: Vec<usize> = match points {
        MOST_POINTS => vec![0, all / 2, all - 3, all - 1],
        _ => [0, all / each / 2, (all / each).saturating_sub(1)]
            .into_iter()
            .flat_map(|unit| each * unit..each * unit + each)
            .filter(|&place| place < all)
            .collect(),
    };
    places.sort();
    places.dedup();
    places.into_iter()
}
