//! Codes to floats and back: one comparison of each function with the
//! reference, and the parts that choose what to compare.

use reference::quantization::{self, Kind, Quantized, Scale};
use reference::refusal::Refusal;

use crate::layouts::RANGES;
use crate::library::{Library, Setting, Slot, CUTS, EMPTY_SLOT, FLOAT};
use crate::part::{part, Part};
use crate::tally::{Flow, Tally};

mod codes;
mod cuts;
mod examples;
pub mod exhaustive;
pub mod floats;
mod reference_itself;
mod refusals;
pub mod rising;

/// The parts that try a library, the quick ones first: most wrong programs are
/// caught by them.
pub const PARTS: &[Part] = &[
    part("marked examples and traps", examples::marked),
    part("published figures", examples::published),
    part("quantize, the ends of narrow range", examples::narrow_ends),
    part("quantize, the borders of every scale", cuts::borders),
    part("quantize, not-a-numbers", floats::not_a_numbers),
    part("dequantize, then quantize back", codes::there_and_back),
    part("refusals, one input at a time", refusals::single),
    part("quantize, floats of codes", floats::of_codes),
    part("quantize, rounding ties", floats::ties),
    part("quantize, every exponent", floats::every_exponent),
    part("dequantize, every code", codes::every_code),
    part("refusals, inputs in pairs", refusals::pairs),
    part("quantize, random floats", floats::random),
    rising::PART,
];

/// The parts that need no library: the reference is compared with itself.
pub const REFERENCE_PARTS: &[Part] = &[
    part("reference, nearest floats", reference_itself::nearest),
    part("reference, 64 against 128 bits", reference_itself::paths),
];

/// The 54 settings that are not refused.
fn settings() -> impl Iterator<Item = Setting> {
    [1, 2].into_iter().flat_map(|model| {
        RANGES.into_iter().flat_map(move |range| {
            [8, 10, 12].into_iter().flat_map(move |depth| {
                [0, 1, 2]
                    .into_iter()
                    .map(move |channel| [model, range, depth, channel])
            })
        })
    })
}

pub fn scale([model, range, depth, channel]: Setting) -> Result<Scale, Refusal> {
    Scale::new(model, range, depth, channel)
}

/// The scale of a setting that is known to have one.
pub fn scale_of(setting: Setting) -> Scale {
    scale(setting).expect("a setting inside the paper")
}

/// A refusal as the C interface answers it.
pub fn refused(refusal: Refusal) -> i64 {
    -i64::from(refusal.number())
}

/// The reference's answer, with the slot as it must be afterwards.
pub fn expected_dequantize(setting: Setting, code: u16, slot: &mut Slot) -> i64 {
    let [model, range, depth, channel] = setting;
    match quantization::dequantize(model, range, depth, channel, code) {
        Ok((kind, bits)) => {
            slot[FLOAT] = bits;
            match kind {
                Kind::Brightness => 0,
                Kind::Difference => 1,
            }
        }
        Err(refusal) => refused(refusal),
    }
}

/// The same with the slot of the number of cuts.
pub fn expected_quantize(setting: Setting, bits: u32, slot: &mut Slot) -> i64 {
    let [model, range, depth, channel] = setting;
    answer(
        quantization::quantize(model, range, depth, channel, bits),
        slot,
    )
}

/// A code with its cut, or a refusal, as the C interface answers it.
fn answer(result: Result<Quantized, Refusal>, slot: &mut Slot) -> i64 {
    match result {
        Ok(Quantized { code, cut }) => {
            slot[CUTS] = cut.into();
            code.into()
        }
        Err(refusal) => refused(refusal),
    }
}

fn compare_dequantize(library: &Library, tally: &mut Tally, setting: Setting, code: u16) -> Flow {
    let mut slot = EMPTY_SLOT;
    let answer = (library.dequantize)(setting, code, &mut slot);
    let mut expected_slot = EMPTY_SLOT;
    let expected = expected_dequantize(setting, code, &mut expected_slot);
    tally.compare(answer == expected && slot == expected_slot, || {
        format!(
            "dequantize {}, code {code}: answer {answer} and memory {slot:08x?}, \
             must be {expected} and {expected_slot:08x?}",
            words(setting)
        )
    })
}

fn compare_quantize(library: &Library, tally: &mut Tally, setting: Setting, bits: u32) -> Flow {
    let mut slot = EMPTY_SLOT;
    let answer = (library.quantize)(setting, f32::from_bits(bits), &mut slot);
    let mut expected_slot = EMPTY_SLOT;
    let expected = expected_quantize(setting, bits, &mut expected_slot);
    tally.compare(answer == expected && slot == expected_slot, || {
        format!(
            "quantize {}, value 0x{bits:08x}: answer {answer} and cuts {slot:x?}, \
             must be {expected} and {expected_slot:x?}",
            words(setting)
        )
    })
}

fn words([model, range, depth, channel]: Setting) -> String {
    format!("model {model}, range {range}, depth {depth}, channel {channel}")
}
