//! Which values are cut, told without rounding: a rounded number lies above the span
//! where the number before it is the top and a half or more, and below the span where
//! it is under the bottom less a half, or in full range, which rounds that half down,
//! just that. This asks the library alone: the reference has no part in it.

use reference::quantization::{Range, Scale};

use crate::library::{Library, Setting, CUTS, EMPTY_SLOT};
use crate::plain::quantization::{ends, line, on_line};
use crate::tally::{Flow, Tally};

use super::floats::{around_ends, SIGNS};
use super::{scale_of, settings, words};

/// Zero, the least float, the greatest subnormal and the least normal one, the greatest
/// float and infinity.
const MAGNITUDES: [u32; 6] = [0, 1, 0x007f_ffff, 0x0080_0000, 0x7f7f_ffff, 0x7f80_0000];

/// The floats on each side of every end and border, and the least and greatest ones.
pub fn borders(library: &Library, tally: &mut Tally) -> Flow {
    for setting in settings() {
        for bits in around_ends(scale_of(setting)).chain(extremes()) {
            agrees(library, tally, setting, f32::from_bits(bits))?;
        }
    }
    Flow::Continue(())
}

fn extremes() -> impl Iterator<Item = u32> {
    let signed = |magnitude| SIGNS.map(|sign| sign | magnitude);
    MAGNITUDES.into_iter().flat_map(signed)
}

fn agrees(library: &Library, tally: &mut Tally, setting: Setting, value: f32) -> Flow {
    let mut slot = EMPTY_SLOT;
    (library.quantize)(setting, value, &mut slot);
    let (cuts, must_be) = (slot[CUTS], u32::from(is_cut(scale_of(setting), value)));
    tally.compare(cuts == must_be, || {
        format!(
            "quantize {}, value {value:?}: {cuts:x} cut, must be {must_be}",
            words(setting)
        )
    })
}

fn is_cut(scale: Scale, value: f32) -> bool {
    let [bottom, top] = ends(scale).map(|end| end as f64);
    let number = on_line(line(scale), value);
    let below = match scale.range {
        Range::Full => number <= bottom - 0.5,
        Range::Narrow | Range::LegacyFull => number < bottom - 0.5,
    };
    below || top + 0.5 <= number
}
