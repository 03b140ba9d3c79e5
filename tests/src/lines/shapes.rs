//! Every layout with short lines, and some of each size with the longest; there and back.

use crate::guarded::Outcome;
use crate::layouts::{
    self, bytes_a_point, elements_in, is_grouped, is_looked_at, packed_length, points_each, DEPTH,
    MODEL, RANGE,
};
use crate::library::{Layout, Library, CUTS};
use crate::plain::quantization::returned;
use crate::quantization::scale_of;
use crate::random::Random;
use crate::tally::{Flow, Tally};

use super::inputs::{self, codes, every_code, value};
use super::{
    compare_decode_line, compare_decode_point, compare_encode_line, compare_encode_point,
    compare_pack_line, compare_unpack_line, expected_pack_line, MOST_POINTS,
};

/// Two points each, so that the second's place is tried too, and a single point.
pub fn every_layout(library: &Library, tally: &mut Tally) -> Flow {
    let mut random = Random::new();
    for layout in layouts::every().chain(layouts::groups()) {
        compare_all(library, tally, layout, 2, &mut random)?;
        let values = [(); 3].map(|()| value(&mut random));
        compare_encode_point(library, tally, layout, values, packed_length(layout, 1))?;
    }
    Flow::Continue(())
}

pub fn long_lines(library: &Library, tally: &mut Tally) -> Flow {
    let mut random = Random::new();
    // The number of orders is no multiple of five, so all of them have a turn.
    for layout in layouts::chosen()
        .step_by(5)
        .chain(layouts::groups_of_each_range())
    {
        compare_all(library, tally, layout, MOST_POINTS, &mut random)?;
    }
    Flow::Continue(())
}

/// What was packed must be unpacked as it was, but in a group with the colour of its
/// first point. This asks the library alone: the reference has no part in it.
pub fn there_and_back(library: &Library, tally: &mut Tally) -> Flow {
    let mut random = Random::new();
    for layout in layouts::chosen_for_lines() {
        for points in [1, 2, 100].map(|length| length * points_each(layout)) {
            let codes = codes(layout, points, &mut random);
            let mut there = Outcome::of(packed_length(layout, points), |out| {
                (library.pack_line)(layout, &codes, out)
            });
            let packed = there.output.output();
            let mut back = Outcome::of(codes.len(), |out| {
                (library.unpack_line)(layout, packed, out)
            });
            tally.compare(back.output.output() == shared(layout, codes), || {
                format!("there and back {layout:?}, {points} points: the codes differ")
            })?;
        }
    }
    Flow::Continue(())
}

/// Any line, decoded and encoded, must come back, its unused bits cleared, as it
/// does when it is unpacked and packed; but the codes that its range never makes come
/// back as the nearer end, and are those that are cut. This too compares the library with
/// itself: on any bytes, and on two points or groups with many of the greatest code.
pub fn decoded_and_back(library: &Library, tally: &mut Tally) -> Flow {
    let mut random = Random::new();
    for layout in layouts::chosen_for_lines() {
        for length in [1, 2, 100] {
            let points = length * points_each(layout);
            let line = inputs::line(layout, points, &mut random);
            let packed = match length {
                2 => packed_by_reference(layout, &line.codes),
                _ => line.packed,
            };
            let mut codes = Outcome::of(3 * points, |out| {
                (library.unpack_line)(layout, &packed, out)
            });
            let codes = codes.output.output();
            let nearer = coming_back(layout, codes);
            let cleared = Outcome::of(packed.len(), |out| {
                (library.pack_line)(layout, &nearer, out)
            });
            let back = decoded_and_encoded(library, layout, &packed);
            let must_be = (
                cleared.output.elements().to_vec(),
                moved(layout, codes, &nearer),
            );
            tally.compare(back == must_be, || {
                format!("there and back {layout:?}, {points} points: the bytes or cuts differ")
            })?;
        }
    }
    Flow::Continue(())
}

/// Every code of every channel, on every scale, decoded and encoded: a line of all, and
/// each point of it alone, but for groups, which have no single points.
pub fn every_code_back(library: &Library, tally: &mut Tally) -> Flow {
    for layout in layouts::all_scales_and_groups() {
        let codes = every_code(layout);
        let packed = packed_by_reference(layout, &codes);
        let nearer = coming_back(layout, &codes);
        let must_be = (
            packed_by_reference(layout, &nearer),
            moved(layout, &codes, &nearer),
        );
        let back = decoded_and_encoded(library, layout, &packed);
        tally.compare(back == must_be, || {
            format!("there and back {layout:?}, every code: the bytes or cuts differ")
        })?;
        if is_grouped(layout) {
            continue;
        }
        let size = bytes_a_point(layout);
        let cuts = codes.chunks(3).zip(nearer.chunks(3));
        let cuts = cuts.map(|(codes, nearer)| moved(layout, codes, nearer));
        let must_be = must_be.0.chunks(size).zip(cuts);
        for (point, must_be) in packed.chunks(size).zip(must_be) {
            let there = Outcome::of(3, |out| (library.decode_point)(layout, point, out));
            let [first, second, third] = there.output.elements() else {
                unreachable!("a point has three floats");
            };
            let values = [first, second, third].map(|&bits| f32::from_bits(bits));
            let back = Outcome::with_cuts(size, |out| (library.encode_point)(layout, values, out));
            let back = (back.output.elements(), back.cuts[CUTS]);
            tally.compare(back == must_be, || {
                format!("there and back {layout:?}, {point:x?}: {back:x?}, must be {must_be:x?}")
            })?;
        }
    }
    Flow::Continue(())
}

/// The codes that a line comes back with when it is decoded and encoded.
fn coming_back(layout: Layout, codes: &[u16]) -> Vec<u16> {
    // All channels have the same ends.
    let scale = scale_of([layout[MODEL], layout[RANGE], layout[DEPTH], 0]);
    codes.iter().map(|&code| returned(scale, code)).collect()
}

/// How many of the codes that are looked at came back as others: so many were cut.
fn moved(layout: Layout, codes: &[u16], nearer: &[u16]) -> u32 {
    let moved = (0..codes.len()).filter(|&place| codes[place] != nearer[place]);
    moved.filter(|&place| is_looked_at(layout, place)).count() as u32
}

/// The codes with the colour of its first point for both points of a group.
fn shared(layout: Layout, mut codes: Vec<u16>) -> Vec<u16> {
    if is_grouped(layout) {
        for group in codes.chunks_mut(6) {
            group.copy_within(1..3, 4);
        }
    }
    codes
}

/// The bytes, and how many values were cut.
fn decoded_and_encoded(library: &Library, layout: Layout, packed: &[u8]) -> (Vec<u8>, u32) {
    let elements = elements_in(layout, packed.len());
    let there = Outcome::of(elements, |out| (library.decode_line)(layout, packed, out));
    let values: Vec<f32> = there
        .output
        .elements()
        .iter()
        .map(|&bits| f32::from_bits(bits))
        .collect();
    let back = Outcome::with_cuts(packed.len(), |out| {
        (library.encode_line)(layout, &values, out)
    });
    (back.output.elements().to_vec(), back.cuts[CUTS])
}

fn packed_by_reference(layout: Layout, codes: &[u16]) -> Vec<u8> {
    let length = packed_length(layout, codes.len() / 3);
    let packed = Outcome::of(length, |out| expected_pack_line(layout, codes, out));
    packed.output.elements().to_vec()
}

/// Random lines of so many points, with outputs of the right length.
fn compare_all(
    library: &Library,
    tally: &mut Tally,
    layout: Layout,
    points: usize,
    random: &mut Random,
) -> Flow {
    let packed_length = packed_length(layout, points);
    let line = inputs::line(layout, points, random);
    compare_unpack_line(library, tally, layout, &line.packed, 3 * points)?;
    compare_decode_line(library, tally, layout, &line.packed, 3 * points)?;
    compare_decode_point(
        library,
        tally,
        layout,
        &line.packed[..bytes_a_point(layout)],
    )?;
    compare_pack_line(library, tally, layout, &line.codes, packed_length)?;
    compare_encode_line(library, tally, layout, &line.values, packed_length)
}
