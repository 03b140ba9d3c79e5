//! The layouts that lines, fields and descriptors are tried with.

use crate::library::Layout;

/// The places of a layout's numbers.
pub const MODEL: usize = 0;
pub const PRIMARIES: usize = 1;
pub const RANGE: usize = 2;
pub const DEPTH: usize = 3;
pub const BYTES: usize = 4;
pub const OFFSETS: usize = 5;
pub const SAMPLING: usize = 8;

pub const RANGES: [u8; 3] = [1, 2, 3];

/// The older full range, which needs edition 3.
pub const LEGACY: u8 = 3;

/// The sampling of points of their own, and of groups, which need edition 4.
pub const OWN: u8 = 0;
pub const SHARED: u8 = 1;

/// Bytes a point, depth, and three offsets.
#[derive(Clone, Copy, PartialEq)]
struct Shape {
    bytes: u8,
    depth: u8,
    offsets: [u8; 3],
}

/// Model, primaries and range.
type Colors = [u8; 3];

/// Every layout of points there is, but for models, primaries and ranges, which take
/// turns.
pub fn every() -> impl Iterator<Item = Layout> {
    sizes()
        .flat_map(|(bytes, depth)| {
            triples(8 * bytes - depth).map(move |offsets| Shape {
                bytes,
                depth,
                offsets,
            })
        })
        .filter(|&shape| fields_apart(shape))
        .zip(colors().cycle())
        .map(layout)
}

/// Some layouts of each size and depth, in all orders of the channels: without
/// gaps from bit 0 and up to the very top, and with gaps between the fields, below
/// them and above them. Models, primaries and ranges take turns.
pub fn chosen() -> impl Iterator<Item = Layout> {
    chosen_shapes().zip(colors().cycle()).map(layout)
}

/// The chosen layouts with every model, primaries and range.
pub fn chosen_in_all_colors() -> impl Iterator<Item = Layout> {
    chosen_shapes().flat_map(|shape| colors().map(move |colors| layout((shape, colors))))
}

/// One layout of each size and depth: gaps wherever there are bits for them, and
/// the channels in an order of their own.
pub fn one_of_each_size() -> impl Iterator<Item = Layout> {
    sizes()
        .map(|(bytes, depth)| {
            let [low, middle, high] = with_gaps(bytes, depth);
            Shape {
                bytes,
                depth,
                offsets: [middle, high, low],
            }
        })
        .zip(colors().step_by(3).cycle())
        .map(layout)
}

/// Groups of two points that share their colour, in every primaries and range.
pub fn groups() -> impl Iterator<Item = Layout> {
    RANGES
        .into_iter()
        .flat_map(|range| (1..=4).map(move |primaries| group(primaries, range)))
}

/// Groups in every range, with primaries of their own.
pub fn groups_of_each_range() -> impl Iterator<Item = Layout> {
    RANGES.into_iter().map(|range| group(1 + range, range))
}

pub const fn group(primaries: u8, range: u8) -> Layout {
    [2, primaries, range, 8, 4, 0, 0, 0, SHARED]
}

/// The chosen layouts, and groups of each range.
pub fn chosen_for_lines() -> impl Iterator<Item = Layout> {
    chosen().chain(groups_of_each_range())
}

/// One layout of each size and depth, and groups of each range.
pub fn one_of_each_size_and_groups() -> impl Iterator<Item = Layout> {
    one_of_each_size().chain(groups_of_each_range())
}

/// One layout of each size and depth, with both models and every range, and groups of
/// each range.
pub fn all_scales_and_groups() -> impl Iterator<Item = Layout> {
    one_of_each_size()
        .flat_map(on_every_scale)
        .chain(groups_of_each_range())
}

/// The layout with both models and every range, so that its depth meets every scale.
pub fn on_every_scale(layout: Layout) -> impl Iterator<Item = Layout> {
    let colors = RANGES
        .into_iter()
        .flat_map(|range| [(1, range), (2, range)]);
    colors.map(move |(model, range)| {
        let mut changed = layout;
        changed[MODEL] = model;
        changed[RANGE] = range;
        changed
    })
}

/// The layout with each of its numbers in turn at each of its 256 values: with
/// overlaps, with fields past the end, with every number out of range.
pub fn changed(layout: Layout) -> impl Iterator<Item = Layout> {
    (0..layout.len()).flat_map(move |place| {
        (0..=u8::MAX).map(move |number| {
            let mut changed = layout;
            changed[place] = number;
            changed
        })
    })
}

/// The bytes of a point, or of a group.
pub fn bytes_a_point(layout: Layout) -> usize {
    usize::from(layout[BYTES])
}

pub fn is_grouped(layout: Layout) -> bool {
    layout[SAMPLING] == SHARED
}

/// How many points lie in these bytes.
pub fn points_each(layout: Layout) -> usize {
    if is_grouped(layout) {
        2
    } else {
        1
    }
}

/// The packed bytes of so many points. The last of an odd number needs a whole group.
pub fn packed_length(layout: Layout, points: usize) -> usize {
    points.div_ceil(points_each(layout)) * bytes_a_point(layout)
}

/// The codes or floats of the points that are whole in so many packed bytes, three a
/// point.
pub fn elements_in(layout: Layout, packed_bytes: usize) -> usize {
    let points = packed_bytes.checked_div(bytes_a_point(layout));
    3 * points_each(layout) * points.unwrap_or(0)
}

/// Whether a code or float is looked at where points are made of a line, by its place:
/// all are, but for the colour of a group's second point.
pub fn is_looked_at(layout: Layout, place: usize) -> bool {
    !is_grouped(layout) || place % 6 < 4
}

/// The sizes of points with the depths for which they have bits enough.
fn sizes() -> impl Iterator<Item = (u8, u8)> {
    (3..=8).flat_map(|bytes| {
        [8, 10, 12]
            .into_iter()
            .filter(move |depth| 3 * depth <= 8 * bytes)
            .map(move |depth| (bytes, depth))
    })
}

fn chosen_shapes() -> impl Iterator<Item = Shape> {
    let mut shapes = Vec::new();
    for (bytes, depth) in sizes() {
        let top = 8 * bytes - depth;
        let rising = [
            [0, depth, 2 * depth],
            [top - 2 * depth, top - depth, top],
            [0, top / 2, top],
            with_gaps(bytes, depth),
        ];
        for [low, middle, high] in rising {
            for offsets in orders(low, middle, high) {
                let shape = Shape {
                    bytes,
                    depth,
                    offsets,
                };
                // With few unused bits or none, some of these are the same.
                if !shapes.contains(&shape) {
                    shapes.push(shape);
                }
            }
        }
    }
    shapes.into_iter()
}

/// Rising offsets with a quarter of the unused bits before each field.
fn with_gaps(bytes: u8, depth: u8) -> [u8; 3] {
    let unused = 8 * bytes - 3 * depth;
    [unused / 4, unused / 2 + depth, unused * 3 / 4 + 2 * depth]
}

/// All threes of numbers up to a greatest one.
fn triples(greatest: u8) -> impl Iterator<Item = [u8; 3]> {
    (0..=greatest).flat_map(move |first| {
        (0..=greatest)
            .flat_map(move |second| (0..=greatest).map(move |third| [first, second, third]))
    })
}

/// All orders of three.
fn orders(a: u8, b: u8, c: u8) -> [[u8; 3]; 6] {
    [
        [a, b, c],
        [a, c, b],
        [b, a, c],
        [b, c, a],
        [c, a, b],
        [c, b, a],
    ]
}

/// The 24 combinations of models, primaries and ranges.
fn colors() -> impl Iterator<Item = Colors> + Clone {
    let ranges = RANGES.len() as u8;
    (0..8 * ranges).map(move |turn| {
        let (round, turn) = (turn / 8, turn % 8);
        [1 + turn % 2, 1 + turn / 2, 1 + (round + turn) % ranges]
    })
}

fn layout((shape, [model, primaries, range]): (Shape, Colors)) -> Layout {
    let [first, second, third] = shape.offsets;
    [
        model,
        primaries,
        range,
        shape.depth,
        shape.bytes,
        first,
        second,
        third,
        OWN,
    ]
}

fn fields_apart(shape: Shape) -> bool {
    let [first, second, third] = shape.offsets;
    [[first, second], [first, third], [second, third]]
        .into_iter()
        .all(|[one, other]| one.abs_diff(other) >= shape.depth)
}
