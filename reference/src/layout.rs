//! Layouts: the paper's "Layout", and A6's groups.

use crate::groups;
use crate::quantization::{Range, Scale};
use crate::refusal::Refusal;

/// The paper's numbers of a layout, in its order, and last the sampling.
pub type Numbers = [u8; 9];

/// A layout inside the paper. Its fields are the paper's numbers.
#[derive(Clone, Copy, Debug, PartialEq, Eq)]
pub struct Layout {
    pub model: u8,
    pub primaries: u8,
    pub range: u8,
    /// The paper's n.
    pub depth: u8,
    /// Those of a group, if points share their colour.
    pub bytes_a_point: u8,
    /// The bit offset of channel 0, 1, 2.
    pub offsets: [u8; 3],
    /// 0 for points of their own, 1 for groups of two that share their colour.
    pub sampling: u8,
}

impl Layout {
    /// The layout of nine numbers, in the order of the fields.
    pub fn new(numbers: Numbers) -> Result<Layout, Refusal> {
        let [model, primaries, range, depth, bytes_a_point, first, second, third, sampling] =
            numbers;
        let layout = Layout {
            model,
            primaries,
            range,
            depth,
            bytes_a_point,
            offsets: [first, second, third],
            sampling,
        };
        let of_its_sampling = match sampling {
            0 => layout.has_points(),
            1 => layout.has_groups(),
            _ => false,
        };
        if matches!(primaries, 1..=4) && Range::new(range).is_ok() && of_its_sampling {
            Ok(layout)
        } else {
            Err(Refusal::Outside)
        }
    }

    /// The same where groups are refused: for a descriptor, a single point or a field.
    pub fn of_points(numbers: Numbers) -> Result<Layout, Refusal> {
        let layout = Layout::new(numbers)?;
        if layout.shares_color() {
            Err(Refusal::Outside)
        } else {
            Ok(layout)
        }
    }

    pub fn numbers(self) -> Numbers {
        let [first, second, third] = self.offsets;
        [
            self.model,
            self.primaries,
            self.range,
            self.depth,
            self.bytes_a_point,
            first,
            second,
            third,
            self.sampling,
        ]
    }

    pub fn shares_color(self) -> bool {
        self.sampling == 1
    }

    /// The bytes of a point, or of a group.
    pub fn point_bytes(self) -> usize {
        usize::from(self.bytes_a_point)
    }

    /// How many points lie in them.
    pub fn points_each(self) -> usize {
        if self.shares_color() {
            groups::POINTS
        } else {
            1
        }
    }

    /// The greatest code, 2^n - 1.
    pub fn greatest_code(self) -> u64 {
        (1 << self.depth) - 1
    }

    /// The scale of a channel, which must be 0, 1 or 2.
    pub fn scale(self, channel: u8) -> Scale {
        Scale::new(self.model, self.range, self.depth, channel)
            .expect("a layout's model, range and depth are inside the paper")
    }

    fn has_points(self) -> bool {
        matches!(self.model, 1 | 2)
            && matches!(self.depth, 8 | 10 | 12)
            && matches!(self.bytes_a_point, 3..=8)
            && self.fields_within_the_point()
            && self.fields_apart()
    }

    /// Y'CbCr of 8 bits in 4 bytes, which have no offsets to choose.
    fn has_groups(self) -> bool {
        [self.model, self.depth, self.bytes_a_point] == [2, 8, 4] && self.offsets == [0; 3]
    }

    fn fields_within_the_point(self) -> bool {
        let point_bits = 8 * u32::from(self.bytes_a_point);
        self.offsets
            .iter()
            .all(|&offset| u32::from(offset) + u32::from(self.depth) <= point_bits)
    }

    /// Whether no bit belongs to two fields, all of which lie within the point.
    fn fields_apart(self) -> bool {
        let [first, second, third] = self.offsets.map(|offset| self.greatest_code() << offset);
        first & second == 0 && first & third == 0 && second & third == 0
    }
}

#[cfg(test)]
mod tests {
    use super::Layout;
    use crate::refusal::Refusal;

    #[test]
    fn groups_have_one_form() {
        let groups = [2, 3, 2, 8, 4, 0, 0, 0, 1];
        assert_eq!(Layout::new(groups).map(Layout::numbers), Ok(groups));
        assert_eq!(Layout::of_points(groups), Err(Refusal::Outside));
        for (place, number) in [
            (0, 1),
            (1, 5),
            (2, 4),
            (3, 10),
            (4, 3),
            (6, 8),
            (8, 0),
            (8, 2),
        ] {
            let mut other = groups;
            other[place] = number;
            assert_eq!(Layout::new(other), Err(Refusal::Outside), "{other:?}");
        }
        // Points with their fields apart, which share nothing.
        assert!(Layout::of_points([2, 3, 2, 8, 4, 0, 8, 16, 0]).is_ok());
        assert!(Layout::new([2, 3, 2, 8, 4, 0, 8, 16, 1]).is_err());
    }
}
