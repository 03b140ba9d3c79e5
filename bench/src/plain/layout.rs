//! A layout as the plain program uses it, checked once a line.

/// Model, primaries, range, depth, bytes a point, the bit offset of channel 0, 1, 2, and
/// the sampling: the nine numbers of the C interface.
pub type Numbers = [u8; 9];

/// The sampling of points of their own, and of groups of two.
const OWN: u8 = 0;
const SHARED: u8 = 1;

pub const MOST_POINTS: usize = 4096;

#[derive(Clone, Copy)]
pub struct Layout {
    pub bytes: usize,
    pub depth: u32,
    pub offsets: [u32; 3],
    pub scales: [Scale; 3],
}

/// A code is the base plus the value times the span, rounded and brought to
/// bottom .. top.
#[derive(Clone, Copy)]
pub struct Scale {
    pub span: i64,
    pub base: i64,
    pub bottom: i64,
    pub top: i64,
}

/// Whether the numbers are those of groups, good or not.
pub fn grouped([.., sampling]: Numbers) -> bool {
    sampling == SHARED
}

/// Whether the numbers are a layout's.
pub fn valid(numbers: Numbers) -> bool {
    valid_points(numbers) || valid_groups(numbers)
}

/// The same of points of their own.
pub fn valid_points(numbers: Numbers) -> bool {
    let [model, _, _, depth, bytes, first, second, third, sampling] = numbers;
    let known = matches!(model, 1 | 2)
        && valid_colors(numbers)
        && matches!(depth, 8 | 10 | 12)
        && matches!(bytes, 3..=8)
        && sampling == OWN;
    let within = |offset: u8| u32::from(offset) + u32::from(depth) <= 8 * u32::from(bytes);
    let apart = |one: u8, other: u8| one.abs_diff(other) >= depth;
    known
        && [first, second, third].into_iter().all(within)
        && apart(first, second)
        && apart(first, third)
        && apart(second, third)
}

/// The same of groups.
pub fn valid_groups(numbers: Numbers) -> bool {
    matches!(numbers, [2, _, _, 8, 4, 0, 0, 0, SHARED]) && valid_colors(numbers)
}

fn valid_colors([_, primaries, range, ..]: Numbers) -> bool {
    matches!(primaries, 1..=4) && matches!(range, 1..=3)
}

/// The packed bytes of so many points, in whole groups where they are grouped.
pub fn packed_bytes(numbers: Numbers, points: usize) -> usize {
    let [_, _, _, _, bytes, ..] = numbers;
    let each = if grouped(numbers) { 2 } else { 1 };
    points / each * usize::from(bytes)
}

impl Layout {
    /// None where points share their colour. Inlined, so that nothing is worked out that a
    /// job does not use.
    #[inline]
    pub fn new(numbers: Numbers) -> Option<Layout> {
        let [model, _, range, depth, bytes, first, second, third, _] = numbers;
        valid_points(numbers).then(|| {
            let brightness = Scale::new(range, depth, false);
            let difference = Scale::new(range, depth, model == 2);
            Layout {
                bytes: bytes.into(),
                depth: depth.into(),
                offsets: [first.into(), second.into(), third.into()],
                scales: [brightness, difference, difference],
            }
        })
    }

    /// The count of points, if the two lengths of a line fit together.
    pub fn count(self, packed_bytes: usize, elements: usize) -> Option<usize> {
        let count = packed_bytes / self.bytes;
        let fit = packed_bytes == count * self.bytes && elements == 3 * count;
        (fit && count <= MOST_POINTS).then_some(count)
    }
}

impl Scale {
    pub fn new(range: u8, depth: u8, difference: bool) -> Scale {
        let middle = i64::from(difference) << (depth - 1);
        let (span, base) = match range {
            1 => {
                let span = 219 + 5 * i64::from(difference);
                let base = 16 + 112 * i64::from(difference);
                (span << (depth - 8), base << (depth - 8))
            }
            2 => ((1 << depth) - 1, middle),
            _ => (1 << depth, middle),
        };
        let (bottom, top) = match (range, depth) {
            (1, _) => (1 << (depth - 8), (255 << (depth - 8)) - 1),
            (3, 12) => (0, 4092),
            _ => (0, (1 << depth) - 1),
        };
        Scale {
            span,
            base,
            bottom,
            top,
        }
    }
}
