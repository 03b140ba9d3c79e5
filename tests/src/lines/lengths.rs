//! Lengths of lines and outputs, right ones and wrong ones.

use crate::layouts::{self, is_grouped, packed_length, points_each};
use crate::library::{Layout, Library};
use crate::random::Random;
use crate::tally::{Flow, Tally};

use super::inputs::{self, Line};
use super::{
    compare_decode_line, compare_decode_point, compare_encode_line, compare_encode_point,
    compare_pack_line, compare_unpack_line, MOST_POINTS,
};

pub fn short_lines(library: &Library, tally: &mut Tally) -> Flow {
    for layout in layouts::one_of_each_size_and_groups() {
        for points in [0, 1, 2, 3, 7, 8] {
            compare_around(library, tally, layout, points)?;
        }
    }
    Flow::Continue(())
}

pub fn long_lines(library: &Library, tally: &mut Tally) -> Flow {
    for layout in layouts::one_of_each_size_and_groups() {
        compare_around(library, tally, layout, MOST_POINTS)?;
    }
    Flow::Continue(())
}

/// Lines that would be right if they were not too long: of odd and of even numbers of
/// points. A count cut to 16 bits would take 65,537 points for one.
pub fn too_many_points(library: &Library, tally: &mut Tally) -> Flow {
    const CUT_TO_NONE: usize = 65_536;
    for layout in layouts::one_of_each_size()
        .step_by(2)
        .chain(layouts::groups_of_each_range())
    {
        let fewest = points_each(layout);
        let longest = CUT_TO_NONE + 2;
        let line = inputs::line(layout, longest, &mut Random::new());
        for points in [
            MOST_POINTS + 1,
            MOST_POINTS + 2,
            MOST_POINTS + 3,
            2 * MOST_POINTS,
            CUT_TO_NONE,
            CUT_TO_NONE + 1,
            longest,
        ] {
            let packed_bytes = packed_length(layout, points);
            compare_lengths(library, tally, layout, &line, packed_bytes, 3 * points)?;
        }
        // And outputs for the points that a cut count would leave.
        let cut = CUT_TO_NONE + fewest;
        let [few_bytes, cut_bytes] = [fewest, cut].map(|points| packed_length(layout, points));
        compare_lengths(library, tally, layout, &line, cut_bytes, 3 * fewest)?;
        compare_lengths(library, tally, layout, &line, few_bytes, 3 * cut)?;
    }
    Flow::Continue(())
}

/// A point's output of every length up to three points, with numbers and with a
/// not-a-number.
pub fn points(library: &Library, tally: &mut Tally) -> Flow {
    for layout in layouts::chosen_for_lines() {
        for length in 0..=packed_length(layout, 3) {
            for values in [[0.5, -0.25, 0.125], [0.5, f32::NAN, 0.125]] {
                compare_encode_point(library, tally, layout, values, length)?;
            }
        }
    }
    Flow::Continue(())
}

/// Bytes of every length up to three points, decoded as a point.
pub fn decoded_points(library: &Library, tally: &mut Tally) -> Flow {
    let mut random = Random::new();
    for layout in layouts::chosen_for_lines() {
        let line = inputs::line(layout, 3, &mut random);
        for length in 0..=line.packed.len() {
            compare_decode_point(library, tally, layout, &line.packed[..length])?;
        }
    }
    Flow::Continue(())
}

/// Packed lengths and numbers of elements around those of so many points, which
/// fit together or not.
fn compare_around(library: &Library, tally: &mut Tally, layout: Layout, points: usize) -> Flow {
    let line = inputs::line(layout, points + points_each(layout), &mut Random::new());
    for packed_bytes in around_points(layout, points) {
        for elements in around(layout, 3 * points) {
            compare_lengths(library, tally, layout, &line, packed_bytes, elements)?;
        }
    }
    Flow::Continue(())
}

/// The line cut to these lengths, with good elements and with a bad one at the
/// end, which competes with wrong lengths.
fn compare_lengths(
    library: &Library,
    tally: &mut Tally,
    layout: Layout,
    line: &Line,
    packed_bytes: usize,
    elements: usize,
) -> Flow {
    let packed = &line.packed[..packed_bytes];
    compare_unpack_line(library, tally, layout, packed, elements)?;
    compare_decode_line(library, tally, layout, packed, elements)?;

    let (codes, values) = (&line.codes[..elements], &line.values[..elements]);
    compare_pack_line(library, tally, layout, codes, packed_bytes)?;
    compare_encode_line(library, tally, layout, values, packed_bytes)?;
    for place in last_places(layout, elements) {
        let (mut codes, mut values) = (codes.to_vec(), values.to_vec());
        codes[place] = u16::MAX;
        values[place] = f32::NAN;
        compare_pack_line(library, tally, layout, &codes, packed_bytes)?;
        compare_encode_line(library, tally, layout, &values, packed_bytes)?;
    }
    Flow::Continue(())
}

/// The place of the last element and, as that is not looked at in a whole group, of the
/// last that is.
fn last_places(layout: Layout, elements: usize) -> impl Iterator<Item = usize> {
    let last = elements.checked_sub(1);
    let looked_at = elements.checked_sub(3).filter(|_| is_grouped(layout));
    last.into_iter().chain(looked_at)
}

/// A point or a group less to one more, by single bytes.
fn around_points(layout: Layout, points: usize) -> impl Iterator<Item = usize> {
    let each = points_each(layout);
    packed_length(layout, points.saturating_sub(each))..=packed_length(layout, points + each)
}

/// A group less, a point less, one too short, exact, one too long, a point more, a group
/// more.
fn around(layout: Layout, elements: usize) -> impl Iterator<Item = usize> {
    let most = 3 * points_each(layout) as isize;
    [-6, -3, -1, 0, 1, 3, 6]
        .into_iter()
        .filter(move |more: &isize| more.abs() <= most)
        .filter_map(move |more| elements.checked_add_signed(more))
}
