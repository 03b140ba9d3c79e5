//! Refusals, and which of two competing refusals is given.

use crate::layouts::LEGACY;
use crate::library::{Library, Setting};
use crate::tally::{Flow, Tally};

use super::{compare_dequantize, compare_quantize, settings};

/// A code of every depth, and numbers that are codes of some depths or of none.
const CODES: [u16; 7] = [200, 255, 256, 1023, 1024, 4096, u16::MAX];

/// A number, an infinity, and not-a-numbers that are quiet, negative, signalling.
const FLOATS: [u32; 5] = [
    0x3f00_0000,
    0xff80_0000,
    0x7fc0_0000,
    0xffc0_0000,
    0x7f80_0001,
];

/// Each input in turn takes all its 256 values, from every setting.
pub fn single(library: &Library, tally: &mut Tally) -> Flow {
    for setting in settings() {
        for input in 0..setting.len() {
            for number in 0..=u8::MAX {
                let mut changed = setting;
                changed[input] = number;
                for code in CODES {
                    compare_dequantize(library, tally, changed, code)?;
                }
                for bits in FLOATS {
                    compare_quantize(library, tally, changed, bits)?;
                }
            }
        }
    }
    Flow::Continue(())
}

/// Each two inputs take all their 65,536 values, from one setting of each kind,
/// with a good code and a bad one, a number and a not-a-number.
pub fn pairs(library: &Library, tally: &mut Tally) -> Flow {
    let brightness: Setting = [1, LEGACY, 8, 1];
    let difference: Setting = [2, 1, 12, 2];
    for setting in [brightness, difference] {
        for first in 0..setting.len() {
            for second in first + 1..setting.len() {
                for numbers in 0..=u16::MAX {
                    let mut changed = setting;
                    [changed[first], changed[second]] = numbers.to_be_bytes();
                    for code in [CODES[0], u16::MAX] {
                        compare_dequantize(library, tally, changed, code)?;
                    }
                    for bits in [FLOATS[0], FLOATS[2]] {
                        compare_quantize(library, tally, changed, bits)?;
                    }
                }
            }
        }
    }
    Flow::Continue(())
}
