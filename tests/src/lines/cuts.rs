//! How many values of a line are cut: none, one in each place, all, and all but one, at
//! lengths around whole turns of eight points or groups; and the count by single values.
//! This asks the library alone: the reference has no part in it.

use crate::guarded::Outcome;
use crate::layouts::{self, bytes_a_point, is_grouped, is_looked_at, packed_length, points_each};
use crate::library::{Layout, Library, CUTS, EMPTY_SLOT};
use crate::quantization::floats::around_ends;
use crate::quantization::scale_of;
use crate::random::Random;
use crate::tally::{Flow, Tally};

use super::inputs;
use super::MOST_POINTS;

/// Points or groups: up to four turns, and one less and more than each.
const LENGTHS: [usize; 15] = [0, 1, 2, 7, 8, 9, 15, 16, 17, 23, 24, 25, 31, 32, 33];

/// On every scale this is far inside.
const INSIDE: f32 = 0.25;

/// And these are far beyond: 2 is at least 454, and -1 at most -96.
const BEYOND: [f32; 6] = [
    2.0,
    -1.0,
    f32::INFINITY,
    f32::MIN,
    f32::NEG_INFINITY,
    f32::MAX,
];

/// With every size of a point, on every scale, and in groups.
pub fn short_lines(library: &Library, tally: &mut Tally) -> Flow {
    let longest = layouts::one_of_each_size().filter(|&layout| bytes_a_point(layout) == 8);
    let on_every_scale = longest.flat_map(layouts::on_every_scale);
    for layout in layouts::one_of_each_size_and_groups().chain(on_every_scale) {
        for points in LENGTHS.map(|length| length * points_each(layout)) {
            in_each_place(library, tally, layout, points, 0..3 * points)?;
        }
    }
    Flow::Continue(())
}

/// The places of the last two turns, and of the longest some alone.
pub fn long_lines(library: &Library, tally: &mut Tally) -> Flow {
    for layout in layouts::one_of_each_size_and_groups() {
        let each = points_each(layout);
        for points in [255 * each, 260 * each] {
            let places = 3 * (points - 16 * each)..3 * points;
            in_each_place(library, tally, layout, points, places)?;
        }
        for points in [MOST_POINTS - each, MOST_POINTS] {
            let places = [0, 3 * (points - 8), 3 * points - 3, 3 * points - 1];
            in_each_place(library, tally, layout, points, places.into_iter())?;
        }
    }
    Flow::Continue(())
}

/// As many as the library's own answers to the single values say.
pub fn by_single_values(library: &Library, tally: &mut Tally) -> Flow {
    let mut random = Random::new();
    for layout in layouts::all_scales_and_groups() {
        let each = points_each(layout);
        for length in [1, 7, 9, 100] {
            let values = inputs::values(length * each, &mut random);
            compare_by_single_values(library, tally, layout, &values)?;
        }
        let [model, _, range, depth, ..] = layout;
        let values: Vec<f32> = [0, 1]
            .into_iter()
            .flat_map(|channel| around_ends(scale_of([model, range, depth, channel])))
            .flat_map(|bits| vec![f32::from_bits(bits); 3 * each])
            .collect();
        compare_by_single_values(library, tally, layout, &values)?;
    }
    for layout in layouts::one_of_each_size_and_groups() {
        let values = inputs::values(MOST_POINTS, &mut random);
        compare_by_single_values(library, tally, layout, &values)?;
    }
    Flow::Continue(())
}

/// A line of values inside with one beyond, and of values beyond with one inside. Where
/// the one is not looked at, it makes no difference.
fn in_each_place(
    library: &Library,
    tally: &mut Tally,
    layout: Layout,
    points: usize,
    places: impl Iterator<Item = usize>,
) -> Flow {
    let looked_at = |place: &usize| is_looked_at(layout, *place);
    let all = (0..3 * points).filter(looked_at).count();
    let mut none = vec![INSIDE; 3 * points];
    let mut every: Vec<f32> = BEYOND.into_iter().cycle().take(3 * points).collect();
    has_cuts(library, tally, layout, &none, 0)?;
    has_cuts(library, tally, layout, &every, all)?;
    for place in places {
        let value = every[place];
        let cut = usize::from(looked_at(&place));
        none[place] = value;
        every[place] = INSIDE;
        has_cuts(library, tally, layout, &none, cut)?;
        has_cuts(library, tally, layout, &every, all - cut)?;
        none[place] = INSIDE;
        every[place] = value;
    }
    Flow::Continue(())
}

/// The line, and each of its points or groups alone.
fn compare_by_single_values(
    library: &Library,
    tally: &mut Tally,
    layout: Layout,
    values: &[f32],
) -> Flow {
    let mut sum = 0_u32;
    for alone in values.chunks(3 * points_each(layout)) {
        let cuts = cuts_of(library, layout, alone);
        let told = Outcome::with_cuts(bytes_a_point(layout), |out| match *alone {
            [first, second, third] if !is_grouped(layout) => {
                (library.encode_point)(layout, [first, second, third], out)
            }
            _ => (library.encode_line)(layout, alone, out),
        });
        let told = told.cuts[CUTS];
        tally.compare(told == cuts, || {
            format!("encode {layout:?}, {alone:?} alone: {told:x} cut, must be {cuts}")
        })?;
        sum = sum.wrapping_add(cuts);
    }
    has_cuts(library, tally, layout, values, sum as usize)
}

/// How many of the values that are looked at are cut, by the single values.
fn cuts_of(library: &Library, layout: Layout, values: &[f32]) -> u32 {
    let [model, _, range, depth, ..] = layout;
    let places = (0..).zip(values);
    let looked_at = places.filter(|&(place, _)| is_looked_at(layout, place));
    let cuts = looked_at.map(|(place, &value)| {
        let mut slot = EMPTY_SLOT;
        let channel = (place % 3) as u8;
        (library.quantize)([model, range, depth, channel], value, &mut slot);
        slot[CUTS]
    });
    cuts.fold(0, u32::wrapping_add)
}

fn has_cuts(
    library: &Library,
    tally: &mut Tally,
    layout: Layout,
    values: &[f32],
    must_be: usize,
) -> Flow {
    let points = values.len() / 3;
    let outcome = Outcome::with_cuts(packed_length(layout, points), |out| {
        (library.encode_line)(layout, values, out)
    });
    let told = (outcome.answer, outcome.cuts[CUTS]);
    let must_be = (points as i64, must_be as u32);
    tally.compare(told == must_be, || {
        let beyond = values.iter().position(|&value| value != INSIDE);
        format!(
            "encode {layout:?}, {points} points, the first value beyond at {beyond:?}: points and \
             cuts {told:x?}, must be {must_be:x?}"
        )
    })
}
