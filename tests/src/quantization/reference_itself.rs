//! The reference compared with itself, where the library cannot show it wrong.

use reference::fixed;
use reference::float::{self, Value};
use reference::fraction::Fraction;
use reference::quantization;

use crate::library::Library;
use crate::random::Random;
use crate::tally::{Flow, Tally};

use super::floats::{around_codes, around_ties, at_every_exponent, of_moderate_size};
use super::{scale_of, settings, words};

const RANDOM_FLOATS: usize = 20_000;

/// The nearest float to a float is itself. Halfway to the next one away from zero
/// it is the even one of the two, and just beside halfway the nearer one.
pub fn nearest(_: &Library, tally: &mut Tally) -> Flow {
    let mut random = Random::new();
    for _ in 0..RANDOM_FLOATS {
        let bits = of_moderate_size(random.next());
        let next = bits + 1;
        let even = if bits.is_multiple_of(2) { bits } else { next };
        let halfway = (over_two_to_60(bits) + over_two_to_60(next)) / 2;
        let cases = [
            (over_two_to_60(bits), bits),
            (halfway, even),
            (halfway - halfway.signum(), bits),
            (halfway + halfway.signum(), next),
        ];
        for (numerator, expected) in cases {
            let fraction = Fraction::new(numerator, 1 << 60);
            let answer = float::nearest(fraction);
            tally.compare(answer == expected, || {
                format!("nearest to {fraction}: 0x{answer:08x}, must be 0x{expected:08x}")
            })?;
        }
    }
    Flow::Continue(())
}

/// The 64 bits against the 128 bits, over the floats that a library is tried with.
pub fn paths(_: &Library, tally: &mut Tally) -> Flow {
    let mut random = Random::new();
    for setting in settings() {
        let scale = scale_of(setting);
        let any: Vec<u32> = (0..RANDOM_FLOATS).map(|_| random.next()).collect();
        let moderate = any.iter().copied().map(of_moderate_size);
        let floats = around_ties(scale)
            .chain(around_codes(scale))
            .chain(at_every_exponent())
            .chain(any.iter().copied())
            .chain(moderate);
        for bits in floats.filter(|&bits| !f32::from_bits(bits).is_nan()) {
            let short = Ok(fixed::quantize(scale, bits));
            let long = quantization::quantized(scale, bits);
            tally.compare(short == long, || {
                format!(
                    "reference {}, value 0x{bits:08x}: {short:?} in 64 bits, {long:?} in 128",
                    words(setting)
                )
            })?;
        }
    }
    Flow::Continue(())
}

/// The numerator over 2^60 of a float of moderate size: its exponent is from
/// -38 to -22, so there are bits to spare for what lies between two floats.
fn over_two_to_60(bits: u32) -> i128 {
    match float::value(bits) {
        Value::Finite {
            significand,
            exponent,
        } => significand << (60 + exponent),
        _ => unreachable!("a float of moderate size is finite"),
    }
}
