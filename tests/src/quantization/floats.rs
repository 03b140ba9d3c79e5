//! The floats that are quantized: those where rounding, clamping or reading the
//! bits could go wrong, and random ones.

use reference::float;
use reference::fraction::HALF;
use reference::quantization::Scale;

use crate::library::Library;
use crate::random::Random;
use crate::tally::{Flow, Tally};

use super::{compare_quantize, scale_of, settings};

pub const SIGNS: [u32; 2] = [0, 1 << 31];
const QUIET: u32 = 1 << 22;
const NOT_FINITE: u32 = 255 << 23;

/// Random floats of each sort for each setting.
const RANDOM_FLOATS: usize = 20_000;

pub fn ties(library: &Library, tally: &mut Tally) -> Flow {
    for setting in settings() {
        for bits in around_ties(scale_of(setting)) {
            compare_quantize(library, tally, setting, bits)?;
        }
    }
    Flow::Continue(())
}

pub fn of_codes(library: &Library, tally: &mut Tally) -> Flow {
    for setting in settings() {
        for bits in around_codes(scale_of(setting)) {
            compare_quantize(library, tally, setting, bits)?;
        }
    }
    Flow::Continue(())
}

/// Both zeros, subnormal floats, the largest finite floats, both infinities and
/// some not-a-numbers are among these.
pub fn every_exponent(library: &Library, tally: &mut Tally) -> Flow {
    for setting in settings() {
        for bits in at_every_exponent() {
            compare_quantize(library, tally, setting, bits)?;
        }
    }
    Flow::Continue(())
}

/// Quiet and signalling ones of both signs: each lower bit alone, with all bits
/// under it, and with a mixture of bits under it.
pub fn not_a_numbers(library: &Library, tally: &mut Tally) -> Flow {
    for bit in 0..22 {
        let to_bit = (2 << bit) - 1;
        for payload in [1 << bit, to_bit, to_bit & 0x15_5555] {
            for fraction in [payload, QUIET | payload] {
                for sign in SIGNS {
                    let bits = sign | NOT_FINITE | fraction;
                    for setting in settings() {
                        compare_quantize(library, tally, setting, bits)?;
                    }
                }
            }
        }
    }
    Flow::Continue(())
}

/// Any bits at all, and floats of every size that the formulas tell apart.
pub fn random(library: &Library, tally: &mut Tally) -> Flow {
    let mut random = Random::new();
    for setting in settings() {
        for _ in 0..RANDOM_FLOATS {
            compare_quantize(library, tally, setting, random.next())?;
            compare_quantize(library, tally, setting, of_moderate_size(random.next()))?;
        }
    }
    Flow::Continue(())
}

/// The floats around every rounding tie c + 1/2, for c from -1 to 2^n.
pub fn around_ties(scale: Scale) -> impl Iterator<Item = u32> {
    numbers(scale).flat_map(move |c| around_tie(scale, c))
}

/// The floats around the tie c + 1/2: the one nearest to it and two on each side. So
/// the tie itself, if it is a float, and else the floats on both sides of it, have
/// both neighbours here.
fn around_tie(scale: Scale, c: i128) -> impl Iterator<Item = u32> {
    // The scale is linear, so the tie's value is halfway between two codes'.
    let tie = (scale.value(c) + scale.value(c + 1)) * HALF;
    around(float::nearest(tie), 2)
}

/// The float of every code, and of the numbers beside the codes, with its two
/// neighbours.
pub fn around_codes(scale: Scale) -> impl Iterator<Item = u32> {
    numbers(scale).flat_map(move |c| around(float::nearest(scale.value(c)), 1))
}

/// The floats around the numbers where some range ends, here or at 8 bits, around the
/// ties beside these, and both infinities.
pub fn around_ends(scale: Scale) -> impl Iterator<Item = u32> {
    let s = 1 << (scale.depth - 8);
    let top = (1 << scale.depth) - 1;
    [0, 1, s, 254, 255 * s - 1, 255 * s, top - 3, top]
        .into_iter()
        .flat_map(|end| end - 2..=end + 2)
        .flat_map(move |c| around(float::nearest(scale.value(c)), 1).chain(around_tie(scale, c)))
        .chain(SIGNS.map(|sign| sign | NOT_FINITE))
}

/// -1 to 2^n: the codes, and the clamped numbers beside them.
fn numbers(scale: Scale) -> std::ops::RangeInclusive<i128> {
    -1..=1 << scale.depth
}

/// Every exponent field with both signs and with fractions at the ends, in the
/// middle, and between.
pub fn at_every_exponent() -> impl Iterator<Item = u32> {
    const FRACTIONS: [u32; 16] = [
        0, 1, 2, 3, 0x00_1000, 0x0f_ffff, 0x20_0000, 0x2a_aaaa, 0x3f_ffff, 0x40_0000, 0x40_0001,
        0x55_5555, 0x60_0000, 0x7f_fffd, 0x7f_fffe, 0x7f_ffff,
    ];
    (0..256).flat_map(|field| {
        SIGNS.into_iter().flat_map(move |sign| {
            FRACTIONS
                .into_iter()
                .map(move |fraction| sign | field << 23 | fraction)
        })
    })
}

/// The float with its field brought to 112 .. 127: a magnitude from 2^-15 to 2.
pub fn of_moderate_size(bits: u32) -> u32 {
    const FIELD: u32 = 255 << 23;
    let field = 112 + (bits >> 23) % 16;
    bits & !FIELD | field << 23
}

/// A float and its neighbours up to some steps away, from below to above.
fn around(bits: u32, steps: i32) -> impl Iterator<Item = u32> {
    (-steps..=steps).map(move |step| moved(bits, step))
}

/// The float some steps above, or below.
fn moved(bits: u32, steps: i32) -> u32 {
    // In order, floats are their magnitude bits counted up or down from zero.
    let magnitude = (bits & 0x7fff_ffff) as i32;
    let place = if bits >> 31 == 1 {
        -magnitude
    } else {
        magnitude
    };
    let moved = place + steps;
    if moved < 0 {
        1 << 31 | moved.unsigned_abs()
    } else {
        moved.unsigned_abs()
    }
}
