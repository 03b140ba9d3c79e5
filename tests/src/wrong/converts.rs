//! A mistake in converting colors, in one direction or in each apart.

use crate::library::{Convert, Library};

use super::{Wrong, REFERENCE};

/// Converts by these pieces, of which one is wrong.
macro_rules! by {
    ($pieces:expr) => {
        |direction, conversion, codes, out| {
            $crate::plain::color::converted(direction, conversion, codes, out, $pieces)
        }
    };
}
pub(super) use by;

/// Two programs: one is wrong to Y'CbCr, the other to R'G'B'.
pub const fn converts(mistake: &'static str, convert: Convert) -> [Wrong; 2] {
    [to_ycbcr(mistake, convert), to_rgb(mistake, convert)]
}

pub const fn to_ycbcr(mistake: &'static str, rgb_to_ycbcr: Convert) -> Wrong {
    let library = Library {
        rgb_to_ycbcr,
        ..REFERENCE
    };
    (mistake, library)
}

pub const fn to_rgb(mistake: &'static str, ycbcr_to_rgb: Convert) -> Wrong {
    let library = Library {
        ycbcr_to_rgb,
        ..REFERENCE
    };
    (mistake, library)
}
