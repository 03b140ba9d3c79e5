//! Numbers that look random and are the same in every run.

use crate::plain::layout::Numbers;

/// Marsaglia's xorshift64, whose high half is used.
pub struct Random(u64);

impl Random {
    pub fn new() -> Random {
        Random(0x9e37_79b9_7f4a_7c15)
    }

    pub fn next(&mut self) -> u32 {
        self.0 ^= self.0 << 13;
        self.0 ^= self.0 >> 7;
        self.0 ^= self.0 << 17;
        (self.0 >> 32) as u32
    }

    /// A number from 0, less than so many.
    pub fn below(&mut self, many: u8) -> u8 {
        (self.next() % u32::from(many)) as u8
    }

    pub fn code(&mut self, depth: u8) -> u16 {
        (self.next() >> (32 - depth)) as u16
    }

    pub fn depth(&mut self) -> u8 {
        8 + 2 * self.below(3)
    }

    /// A float of either sign from 2^-15 to 2.
    pub fn value(&mut self) -> f32 {
        let bits = self.next();
        let field = 112 + (bits >> 23) % 16;
        f32::from_bits(bits & 0x807f_ffff | field << 23)
    }

    /// A layout of points: its fields in any order, with a gap somewhere.
    pub fn layout(&mut self) -> Numbers {
        let depth = self.depth();
        let least = (3 * depth).div_ceil(8);
        let bytes = least + self.below(9 - least);
        let gap = self.below(8 * bytes - 3 * depth + 1);
        let gap_at = self.below(4);
        let mut order = [0, 1, 2];
        order.swap(0, self.below(3).into());
        order.swap(1, 1 + usize::from(self.below(2)));
        let [first, second, third] = order.map(|place| {
            let ahead = if place < gap_at { 0 } else { gap };
            place * depth + ahead
        });
        [
            1 + self.below(2),
            1 + self.below(4),
            1 + self.below(3),
            depth,
            bytes,
            first,
            second,
            third,
            0,
        ]
    }

    /// A layout of groups.
    pub fn groups(&mut self) -> Numbers {
        [2, 1 + self.below(4), 1 + self.below(3), 8, 4, 0, 0, 0, 1]
    }
}
