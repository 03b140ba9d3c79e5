//! All 2^32 floats of a scale, not-a-numbers too: against the reference, and each against
//! the next one towards zero, so that the codes never fall as the values rise.

use reference::fixed;
use reference::quantization::{quantized, Scale};
use reference::refusal::Refusal;

use crate::exhaustive::on_all_cores;
use crate::library::{Library, Setting, EMPTY_SLOT};
use crate::tally::{Flow, Tally};

use super::{answer, scale_of, settings, words};

/// The floats are handed to the threads in blocks that share their highest bits.
const BLOCKS: u32 = 256;
const BLOCK_BITS: u32 = 24;

/// For one float in so many the reference's 64 bits are compared with its 128.
const SAMPLE: u32 = 1021;

/// Goes through the floats on all cores. The settings of the scale take turns.
pub fn run(library: &Library, scale: Scale) -> Tally {
    let settings: Vec<Setting> = settings()
        .filter(|&setting| scale_of(setting) == scale)
        .collect();
    on_all_cores(BLOCKS, |block, tally| {
        go_through(library, tally, scale, &settings, block)
    })
}

fn go_through(
    library: &Library,
    tally: &mut Tally,
    scale: Scale,
    settings: &[Setting],
    block: u32,
) -> Flow {
    let setting_of = |bits: u32| settings[bits as usize % settings.len()];
    let first = block << BLOCK_BITS;
    let before = towards_zero(first);
    let mut nearer = (library.quantize)(
        setting_of(before),
        f32::from_bits(before),
        &mut EMPTY_SLOT.clone(),
    );
    for low in 0..1 << BLOCK_BITS {
        let bits = first | low;
        let setting = setting_of(bits);
        let value = f32::from_bits(bits);
        let short = if value.is_nan() {
            Err(Refusal::NotANumber)
        } else {
            Ok(fixed::quantize(scale, bits))
        };
        let (mut slot, mut expected_slot) = (EMPTY_SLOT, EMPTY_SLOT);
        let answered = (library.quantize)(setting, value, &mut slot);
        let expected = answer(short, &mut expected_slot);
        let sampled = bits.is_multiple_of(SAMPLE);
        let agreed = !sampled || short == quantized(scale, bits);
        let falls = match value.is_sign_negative() {
            true => nearer < answered,
            false => answered < nearer,
        };
        let falls = falls && !value.is_nan();
        let same = answered == expected && slot == expected_slot;
        tally.compare(same && agreed && !falls, || {
            format!(
                "quantize {}, value 0x{bits:08x}: answer {answered} and cuts {slot:x?}, must be \
                 {expected} and {expected_slot:x?}, by the 128 bits {:?}; nearer to zero {nearer}",
                words(setting),
                quantized(scale, bits)
            )
        })?;
        nearer = answered;
    }
    Flow::Continue(())
}

/// The next float towards zero. That of both zeros is zero.
fn towards_zero(bits: u32) -> u32 {
    match bits {
        0 | 0x8000_0000 => 0,
        _ => bits - 1,
    }
}
