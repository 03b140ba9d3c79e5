//! 32-bit floats as their bits: what a float is worth, and the float nearest a
//! fraction. Both are worked out in whole numbers.

use crate::fraction::Fraction;

/// What the bits of a float stand for.
#[derive(Clone, Copy, Debug, PartialEq, Eq)]
pub enum Value {
    NotANumber,
    PlusInfinity,
    MinusInfinity,
    /// Exactly `significand * 2^exponent`, the sign being the significand's.
    Finite {
        significand: i128,
        exponent: i32,
    },
}

/// The exact value of the float with these bits.
pub fn value(bits: u32) -> Value {
    let negative = bits >> 31 == 1;
    let field = (bits >> 23 & 255) as i32;
    let fraction = i128::from(bits & 0x7f_ffff);
    let (magnitude, exponent) = match field {
        255 if fraction != 0 => return Value::NotANumber,
        255 if negative => return Value::MinusInfinity,
        255 => return Value::PlusInfinity,
        0 => (fraction, -149),
        1..=254 => ((1 << 23) + fraction, field - 150),
        _ => unreachable!("the field has eight bits"),
    };
    Value::Finite {
        significand: if negative { -magnitude } else { magnitude },
        exponent,
    }
}

/// The bits of the float nearest to a fraction: ties to the even significand,
/// zero as plus zero.
///
/// The fraction's numbers must be under 2^100, so that they can be scaled. Then
/// the float's field is from 1 to 254, but for zero.
pub fn nearest(fraction: Fraction) -> u32 {
    if fraction.sign() == 0 {
        return 0;
    }
    let sign_bit = if fraction.sign() < 0 { 1 << 31 } else { 0 };
    let mut p = fraction.numerator().abs();
    let mut q = fraction.denominator();
    assert!(
        p < 1 << 100 && q < 1 << 100,
        "too long to scale: {fraction}"
    );

    // Keep p/q * 2^exponent equal to the fraction's magnitude, and bring p/q to
    // 2^23 or above and below 2^24.
    let mut exponent = 0;
    while p < q << 23 {
        p <<= 1;
        exponent -= 1;
    }
    while p >= q << 24 {
        q <<= 1;
        exponent += 1;
    }

    // Now the significand is p/q rounded: up above a half, and at a half if odd.
    let floor = p / q;
    let twice_the_rest = 2 * (p % q);
    let up = twice_the_rest > q || twice_the_rest == q && floor % 2 == 1;
    let significand = (floor + i128::from(up)) as u32;

    // The field is exponent + 150, and the fraction bits leave 2^23 out. Rounding
    // up may have made the significand 2^24: that is 2^23 at the next exponent,
    // and the sum carries it there.
    let field = (exponent + 150) as u32;
    sign_bit | ((field << 23) + (significand - (1 << 23)))
}
