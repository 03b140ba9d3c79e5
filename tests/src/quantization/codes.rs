//! Every code of every setting.

use crate::library::{Library, CUTS, EMPTY_SLOT, FLOAT};
use crate::plain::quantization::returned;
use crate::tally::{Flow, Tally};

use super::{compare_dequantize, scale_of, settings, words};

/// Every 16-bit number as a code, those above 2^n - 1 included.
pub fn every_code(library: &Library, tally: &mut Tally) -> Flow {
    for setting in settings() {
        for code in 0..=u16::MAX {
            compare_dequantize(library, tally, setting, code)?;
        }
    }
    Flow::Continue(())
}

/// Every code made a float must come back as itself, but for those that its range
/// never makes, which come back as the nearer end, cut. This asks the library alone: the
/// reference has no part in it.
pub fn there_and_back(library: &Library, tally: &mut Tally) -> Flow {
    for setting in settings() {
        let scale = scale_of(setting);
        for code in 0..1_u16 << scale.depth {
            let must_be = returned(scale, code);
            let mut slot = EMPTY_SLOT;
            (library.dequantize)(setting, code, &mut slot);
            let bits = slot[FLOAT];
            let mut slot = EMPTY_SLOT;
            let back = (library.quantize)(setting, f32::from_bits(bits), &mut slot);
            let (cuts, must_be_cuts) = (slot[CUTS], u32::from(code != must_be));
            let same = back == i64::from(must_be) && cuts == must_be_cuts;
            tally.compare(same, || {
                format!(
                    "there and back {}, code {code}: value 0x{bits:08x}, then {back} and \
                     {cuts:x} cut, must be {must_be} and {must_be_cuts}",
                    words(setting)
                )
            })?;
        }
    }
    Flow::Continue(())
}
