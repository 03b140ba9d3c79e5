//! The bytes that hold the code of one channel, and the code, in plain Rust.

use super::layout::{self, Layout, Numbers};
use super::refusal::{LENGTH, OUTSIDE};

/// Where in a point the code of a channel is.
#[derive(Clone, Copy)]
pub struct Field {
    /// The first of its bytes.
    pub first: usize,
    /// One to three bytes.
    pub count: usize,
    /// The first of its bits, in that byte.
    from: u32,
    greatest: u32,
}

pub fn field_bytes(layout: Numbers, channel: u8, first: &mut u8) -> i64 {
    let Some(field) = field(layout, channel) else {
        return OUTSIDE;
    };
    *first = field.first as u8;
    field.count as i64
}

pub fn field_code(layout: Numbers, channel: u8, bytes: &[u8]) -> i64 {
    let Some(field) = field(layout, channel) else {
        return OUTSIDE;
    };
    if bytes.len() != field.count {
        return LENGTH;
    }
    field.code(bytes).into()
}

fn field(numbers: Numbers, channel: u8) -> Option<Field> {
    let [_, _, _, depth, _, first, second, third, _] = numbers;
    let offset = *[first, second, third].get(usize::from(channel))?;
    layout::valid_points(numbers).then(|| Field::new(depth.into(), offset.into()))
}

// Inlined early, so that the loops of lines are seen as they are.
impl Layout {
    #[inline]
    pub fn field(self, channel: usize) -> Field {
        Field::new(self.depth, self.offsets[channel])
    }
}

impl Field {
    #[inline]
    fn new(depth: u32, offset: u32) -> Field {
        let (first, last) = (offset / 8, (offset + depth - 1) / 8);
        Field {
            first: first as usize,
            count: (last - first + 1) as usize,
            from: offset % 8,
            greatest: (1 << depth) - 1,
        }
    }

    /// The code in the bytes of the field.
    #[inline]
    pub fn code(self, bytes: &[u8]) -> u32 {
        let together = match *bytes {
            // All of its bits.
            [only] => return only.into(),
            [first, second] => u16::from_le_bytes([first, second]).into(),
            [first, second, third] => u32::from_le_bytes([first, second, third, 0]),
            _ => 0,
        };
        together >> self.from & self.greatest
    }
}
