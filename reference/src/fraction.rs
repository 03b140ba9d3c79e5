//! Exact fractions of whole numbers.

use std::fmt;
use std::ops::{Add, Div, Mul, Sub};

pub const HALF: Fraction = Fraction::new(1, 2);

/// A numerator over a denominator above zero.
///
/// Fractions are never reduced, but a sum keeps a denominator that both sides
/// share: those of this work stay far below 2^127. If one did not, the checked
/// products and sums would stop the program rather than let it give a wrong
/// answer.
#[derive(Clone, Copy, Debug)]
pub struct Fraction {
    numerator: i128,
    denominator: i128,
}

impl Fraction {
    pub const fn new(numerator: i128, denominator: i128) -> Fraction {
        assert!(denominator > 0, "a denominator must be above zero");
        Fraction {
            numerator,
            denominator,
        }
    }

    pub fn numerator(self) -> i128 {
        self.numerator
    }

    pub fn denominator(self) -> i128 {
        self.denominator
    }

    /// 1, 0 or -1.
    pub fn sign(self) -> i128 {
        self.numerator.signum()
    }

    pub fn abs(self) -> Fraction {
        Fraction::new(self.numerator.abs(), self.denominator)
    }

    /// Whether both are the same number.
    pub fn same(self, other: Fraction) -> bool {
        (self - other).sign() == 0
    }

    /// The greatest whole number that is not above the fraction.
    pub fn floor(self) -> i128 {
        // The denominator is positive, so Euclid's quotient is the floor.
        self.numerator.div_euclid(self.denominator)
    }
}

impl Add<Fraction> for Fraction {
    type Output = Fraction;

    fn add(self, other: Fraction) -> Fraction {
        if self.denominator == other.denominator {
            return Fraction::new(sum(self.numerator, other.numerator), self.denominator);
        }
        Fraction::new(
            sum(
                product(self.numerator, other.denominator),
                product(other.numerator, self.denominator),
            ),
            product(self.denominator, other.denominator),
        )
    }
}

impl Add<i128> for Fraction {
    type Output = Fraction;

    fn add(self, whole: i128) -> Fraction {
        self + Fraction::new(whole, 1)
    }
}

impl Sub<Fraction> for Fraction {
    type Output = Fraction;

    fn sub(self, other: Fraction) -> Fraction {
        self + -1 * other
    }
}

impl Sub<Fraction> for i128 {
    type Output = Fraction;

    fn sub(self, fraction: Fraction) -> Fraction {
        Fraction::new(self, 1) - fraction
    }
}

impl Mul<Fraction> for Fraction {
    type Output = Fraction;

    fn mul(self, other: Fraction) -> Fraction {
        Fraction::new(
            product(self.numerator, other.numerator),
            product(self.denominator, other.denominator),
        )
    }
}

impl Mul<i128> for Fraction {
    type Output = Fraction;

    fn mul(self, whole: i128) -> Fraction {
        self * Fraction::new(whole, 1)
    }
}

impl Mul<Fraction> for i128 {
    type Output = Fraction;

    fn mul(self, fraction: Fraction) -> Fraction {
        fraction * self
    }
}

impl Div<Fraction> for Fraction {
    type Output = Fraction;

    /// The divisor must be above zero.
    fn div(self, divisor: Fraction) -> Fraction {
        Fraction::new(
            product(self.numerator, divisor.denominator),
            product(self.denominator, divisor.numerator),
        )
    }
}

impl fmt::Display for Fraction {
    fn fmt(&self, f: &mut fmt::Formatter) -> fmt::Result {
        write!(f, "{}/{}", self.numerator, self.denominator)
    }
}

fn product(a: i128, b: i128) -> i128 {
    a.checked_mul(b).expect("a product beyond 128 bits")
}

fn sum(a: i128, b: i128) -> i128 {
    a.checked_add(b).expect("a sum beyond 128 bits")
}
