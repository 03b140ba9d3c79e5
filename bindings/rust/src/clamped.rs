//! What is answered of points whose codes are clamped.

use crate::refusal::answer;
use crate::Refusal;

/// How many points there are, and how many of their values were cut: those whose
/// rounded number lay beyond the ends of the codes that the range makes, and infinities.
/// A line has three values a point; Cb and Cr of a group's second point are not looked at.
#[derive(Clone, Copy, Debug, PartialEq, Eq, Hash)]
pub struct Clamped {
    /// The count of points.
    pub points: usize,
    /// The number of values that were cut: the places of the line that are looked at and
    /// where [`Quantized`](crate::Quantized) would say so.
    pub cuts: usize,
}

/// The answer of a call that is lent the number of cuts.
#[inline]
pub(crate) fn clamped(call: impl FnOnce(&mut u32) -> i64) -> Result<Clamped, Refusal> {
    let mut cuts = 0;
    let points = answer(call(&mut cuts))?;
    Ok(Clamped {
        points,
        cuts: cuts as usize,
    })
}
