//! The code of a value never falls as the value rises, from one infinity to the other. This
//! asks the library alone: the reference has no part in it, but for choosing floats.

use reference::quantization::Scale;

use crate::library::{Library, EMPTY_SLOT};
use crate::part::{part, Part};
use crate::plain::quantization::ends;
use crate::random::Random;
use crate::tally::{Flow, Tally};

use super::floats::{around_codes, around_ties, at_every_exponent, of_moderate_size};
use super::{scale_of, settings, words};

/// Wrong programs are tried with this alone, so that it is seen to fail.
pub const PART: Part = part("quantize, codes never fall", one_by_one);

/// Random floats of each sort for each list.
const RANDOM_FLOATS: usize = 5_000;

fn one_by_one(library: &Library, tally: &mut Tally) -> Flow {
    for setting in settings() {
        let scale = scale_of(setting);
        let values = rising(&[scale]);
        let codes: Vec<i64> = values
            .iter()
            .map(|&value| (library.quantize)(setting, value, &mut EMPTY_SLOT.clone()))
            .collect();
        never_fall(tally, scale, &values, &codes, || {
            format!("quantize {}", words(setting))
        })?;
    }
    Flow::Continue(())
}

/// Floats from minus infinity to plus infinity: those around every code and every tie of
/// these scales, of every exponent, and random ones. Minus zero stands before zero.
pub fn rising(scales: &[Scale]) -> Vec<f32> {
    let mut random = Random::new();
    let any: Vec<u32> = (0..RANDOM_FLOATS).map(|_| random.next()).collect();
    let moderate = any.iter().copied().map(of_moderate_size);
    let mut values: Vec<f32> = scales
        .iter()
        .flat_map(|&scale| around_codes(scale).chain(around_ties(scale)))
        .chain(at_every_exponent())
        .chain(any.iter().copied())
        .chain(moderate)
        .map(f32::from_bits)
        .filter(|value| !value.is_nan())
        .collect();
    values.sort_by(f32::total_cmp);
    values.dedup_by_key(|value| value.to_bits());
    values
}

/// The codes of rising values: the first is the lower end, the last the upper end, none is
/// below the one before it, and both zeros have the same.
pub fn never_fall(
    tally: &mut Tally,
    scale: Scale,
    values: &[f32],
    codes: &[i64],
    name: impl Fn() -> String,
) -> Flow {
    let ends = ends(scale);
    let outer = [codes[0], codes[codes.len() - 1]];
    tally.compare(outer == ends, || {
        format!(
            "{}: from {} to {}, must be {ends:?}",
            name(),
            outer[0],
            outer[1]
        )
    })?;
    for (values, codes) in values.windows(2).zip(codes.windows(2)) {
        let right = match values[0] < values[1] {
            true => codes[0] <= codes[1],
            false => codes[0] == codes[1],
        };
        tally.compare(right, || {
            format!(
                "{}: {values:?} are {codes:?}, which fall or tell zeros apart",
                name()
            )
        })?;
    }
    Flow::Continue(())
}
