//! Refusals.

use std::error::Error;
use std::fmt;

/// Why a call was refused. Nothing that was lent to it has changed.
///
/// Each number has a constant, which may stand in a pattern. A number that is not
/// among them is kept as it is.
///
/// ```
/// use imurraqi::{stack_find, Refusal};
///
/// let refusal = stack_find(&[], 2, 7).unwrap_err();
/// assert_eq!(refusal, Refusal::NO_ITEM);
/// assert_eq!(refusal.number(), 15);
/// assert_eq!(refusal.to_string(), "refusal 15: no card that the edition reads has the item");
/// ```
#[derive(Clone, Copy, PartialEq, Eq, Hash)]
pub struct Refusal(u8);

/// The constant and the meaning of each number.
macro_rules! table {
    ($($number:literal $name:ident $meaning:literal;)*) => {
        impl Refusal {
            $(
                #[doc = concat!("Number ", $number, ": ", $meaning, ".")]
                pub const $name: Refusal = Refusal($number);
            )*

            /// All of these, in the order of their numbers.
            pub const ALL: &'static [Refusal] = &[$(Refusal::$name),*];

            /// The number in plain words.
            pub const fn meaning(self) -> &'static str {
                match self {
                    $(Refusal::$name => $meaning,)*
                    _ => "a number that this version does not know",
                }
            }
        }
    };
}

table! {
    1 WRONG_LENGTH "a descriptor not of 76 bytes, a card not of 32, \
        or a stack not of whole cards or of over 1,024";
    2 WRONG_HEADER "bytes 0 to 11 of the descriptor are wrong";
    3 WRONG_COLOR "bytes 12 to 15 of the descriptor (model, primaries) are wrong";
    4 WRONG_PLANES "bytes 16 to 27 of the descriptor (bytes a point) are wrong";
    5 WRONG_SAMPLE "a sample's offset, length, channel, position or order is wrong";
    6 NO_RANGE "the descriptor's samples state no one range";
    7 UNKNOWN_EDITION "the edition asked is not known";
    8 LATER_EDITION "the card is for later editions only";
    9 OUTSIDE "a number, field or layout is none of those that are allowed";
    10 UNKNOWN_ACCESS "the card's access is not known";
    11 UNWRITABLE "the edition lacks the layout or the access";
    12 NOT_A_NUMBER "a float is not a number";
    13 WRONG_LINE_OR_OUTPUT "a line not of whole points or groups or of over 4,096 points, \
        not exactly the bytes of a field or of a picture, \
        or an output not exactly as long as needed";
    14 CODE_TOO_HIGH "a code is too high for its depth";
    15 NO_ITEM "no card that the edition reads has the item";
    16 ODD_COUNT "of groups: an odd width, or an odd count of whole points to encode or pack";
    17 NOT_OPEN "the card is not open, so that no picture is made of it";
    18 WRONG_PICTURE "a picture file without a header of the form that is accepted, \
        or with a code above the largest that its header tells";
}

impl Refusal {
    /// The refusal of a number as a replay gives it: none for 0.
    pub const fn of(number: u8) -> Option<Refusal> {
        match number {
            0 => None,
            _ => Some(Refusal(number)),
        }
    }

    /// Its number.
    pub const fn number(self) -> u8 {
        self.0
    }
}

impl fmt::Display for Refusal {
    fn fmt(&self, f: &mut fmt::Formatter) -> fmt::Result {
        write!(f, "refusal {}: {}", self.number(), self.meaning())
    }
}

/// With its meaning, for whoever unwraps it.
impl fmt::Debug for Refusal {
    fn fmt(&self, f: &mut fmt::Formatter) -> fmt::Result {
        write!(f, "Refusal({}: {})", self.number(), self.meaning())
    }
}

impl Error for Refusal {}

/// An answer of the C interface: minus the number of a refusal, or 0 or more.
#[inline]
pub(crate) fn answer(answer: i64) -> Result<usize, Refusal> {
    // The numbers of refusals are small; a larger one would be kept as the largest.
    usize::try_from(answer)
        .map_err(|_| Refusal(answer.unsigned_abs().try_into().unwrap_or(u8::MAX)))
}

/// An answer that says no more than that the call was accepted.
#[inline]
pub(crate) fn accepted(number: i64) -> Result<(), Refusal> {
    answer(number).map(|_| ())
}

#[cfg(test)]
mod tests {
    use super::Refusal;

    #[test]
    fn every_number_has_its_row() {
        let numbers = Refusal::ALL.iter().map(|refusal| refusal.number());
        assert!(numbers.eq((1..).take(Refusal::ALL.len())));
    }

    #[test]
    fn a_number_without_a_row_is_kept() {
        let last = Refusal::ALL.len() as i64;
        for (answer, number) in [(-last - 1, last as u8 + 1), (-255, 255), (i64::MIN, 255)] {
            let refusal = super::answer(answer).unwrap_err();
            assert_eq!(refusal.number(), number);
            assert!(refusal.to_string().ends_with("this version does not know"));
        }
    }
}
