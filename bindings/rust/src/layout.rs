//! The layout of a point.

use crate::{Conversion, Setting};

/// Models.
pub mod model {
    /// R', G' and B'.
    pub const RGB: u8 = 1;
    /// Y', Cb and Cr.
    pub const YCBCR: u8 = 2;
}

/// Primaries, and the row of weights that goes with them.
pub mod primaries {
    /// BT.709.
    pub const BT709: u8 = 1;
    /// BT.601 EBU.
    pub const BT601_EBU: u8 = 2;
    /// BT.601 SMPTE.
    pub const BT601_SMPTE: u8 = 3;
    /// BT.2020.
    pub const BT2020: u8 = 4;
}

/// Ranges of codes.
pub mod range {
    /// A brightness from 0 to 1 has the codes 16 s to 235 s, with s = 2^(depth-8). No
    /// code under s or above 255 s - 1 is made.
    pub const NARROW: u8 = 1;
    /// A brightness from 0 to 1 has all codes of its depth.
    pub const FULL: u8 = 2;
    /// The older full range, of BT.2100-0 and JFIF: a brightness of 1 would have the
    /// code 2^depth, one above all. No code above 4092 is made at 12 bits.
    pub const LEGACY_FULL: u8 = 3;
}

/// Whether points share their Cb and Cr.
pub mod sampling {
    /// Points of their own.
    pub const OWN: u8 = 0;
    /// Groups of two points that share Cb and Cr: four bytes, Cb, Y', Cr, Y', of 8 bits
    /// each.
    pub const GROUPS: u8 = 1;
}

/// How a point, or a group of two, lies in its bytes.
///
/// ```
/// use imurraqi::{model, primaries, range, sampling, Layout};
///
/// let layout = Layout {
///     model: model::YCBCR,
///     primaries: primaries::BT601_EBU,
///     range: range::NARROW,
///     depth: 10,
///     bytes: 4,
///     offsets: [0, 10, 20],
///     sampling: sampling::OWN,
/// };
/// assert_eq!(layout.to_bytes(), [2, 2, 1, 10, 4, 0, 10, 20, 0]);
/// assert_eq!(Layout::from_bytes(layout.to_bytes()), layout);
///
/// // The one form of groups, in any range and with any primaries.
/// let groups = Layout {
///     depth: 8,
///     bytes: 4,
///     offsets: [0; 3],
///     sampling: sampling::GROUPS,
///     ..layout
/// };
/// assert_eq!(groups.to_bytes(), [2, 2, 1, 8, 4, 0, 0, 0, 1]);
/// ```
#[derive(Clone, Copy, Debug, PartialEq, Eq, Hash)]
pub struct Layout {
    /// One of [`model`].
    pub model: u8,
    /// One of [`primaries`].
    pub primaries: u8,
    /// One of [`range`].
    pub range: u8,
    /// Bits a channel: 8, 10 or 12.
    pub depth: u8,
    /// Bytes a point, 3 to 8, or a group, 4.
    pub bytes: u8,
    /// Where the fields of channels 0, 1 and 2 begin, in bits; of groups zeros.
    pub offsets: [u8; 3],
    /// One of [`sampling`].
    pub sampling: u8,
}

impl Layout {
    /// How many bytes a layout has in the C interface.
    pub const SIZE: usize = 9;

    /// The layout of the C interface's bytes.
    #[inline]
    pub const fn from_bytes(bytes: [u8; Layout::SIZE]) -> Layout {
        let [model, primaries, range, depth, bytes, offsets @ .., sampling] = bytes;
        Layout {
            model,
            primaries,
            range,
            depth,
            bytes,
            offsets,
            sampling,
        }
    }

    /// Its bytes in the C interface.
    #[inline]
    pub const fn to_bytes(self) -> [u8; Layout::SIZE] {
        let Layout {
            model,
            primaries,
            range,
            depth,
            bytes,
            offsets: [first, second, third],
            sampling,
        } = self;
        [
            model, primaries, range, depth, bytes, first, second, third, sampling,
        ]
    }

    /// One channel of it.
    #[inline]
    pub const fn setting(self, channel: u8) -> Setting {
        Setting {
            model: self.model,
            range: self.range,
            depth: self.depth,
            channel,
        }
    }

    /// From its codes to those of the other model in a range.
    #[inline]
    pub const fn conversion(self, range_out: u8) -> Conversion {
        Conversion {
            primaries: self.primaries,
            depth: self.depth,
            range_in: self.range,
            range_out,
        }
    }
}
