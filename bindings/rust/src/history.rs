//! The history of one card.

use std::array;

use crate::ffi;
use crate::refusal::accepted;
use crate::{Facts, Layout, Refusal};

/// What is asked of a card, and where the outputs go.
#[derive(Debug)]
pub struct History<'a> {
    /// The edition at which the card is written.
    pub first: u8,
    /// What is written to it.
    pub facts: Facts,
    /// The edition of each rewrite.
    pub editions: &'a [u8],
    /// How many bytes of `outputs` each rewrite may write to.
    pub lengths: &'a [usize],
    /// The edition at which the card is read at last.
    pub last: u8,
    /// A line, to be decoded by the layout that is read.
    pub packed: &'a [u8],
    /// For the card last written, [`CARD_SIZE`](crate::CARD_SIZE) bytes.
    pub card: &'a mut [u8],
    /// For the rewrites, one after the other.
    pub outputs: &'a mut [u8],
    /// For each rewrite: 0, or the number of its refusal (see [`Refusal::of`]).
    pub answers: &'a mut [u8],
    /// For the line's floats.
    pub values: &'a mut [f32],
}

/// What is seen at the end of a history.
#[derive(Clone, Copy, Debug, PartialEq, Eq)]
pub struct Replayed {
    /// What the last reading shows.
    pub read: Result<Facts, Refusal>,
    /// The count of points that were decoded. A refused reading decodes nothing, and
    /// its refusal is here too.
    pub decoded: Result<usize, Refusal>,
}

/// Writes a card, rewrites it at each of the editions, reads it, and decodes a line
/// by the layout that is read. Refused: 7, 9, 16 or 11, as the first writing is; then 13
/// where the card's place, the three lists or the lengths do not fit together.
///
/// ```
/// use imurraqi::{access, replay, Facts, History, Layout, Refusal};
///
/// let facts = Facts {
///     layout: Layout::from_bytes([2, 2, 1, 10, 4, 0, 10, 20, 0]),
///     width: 720,
///     height: 576,
///     item: 7,
///     access: access::OPEN,
/// };
/// let (mut card, mut outputs, mut answers, mut values) = ([0; 32], [0; 64], [0; 2], [0.0; 3]);
/// // Written at 2; refused at 5, which is not known; rewritten at 1, which closes it.
/// let replayed = replay(History {
///     first: 2,
///     facts,
///     editions: &[5, 1],
///     lengths: &[32, 32],
///     last: 2,
///     packed: &[0xae, 0x00, 0x0f, 0x04],
///     card: &mut card,
///     outputs: &mut outputs,
///     answers: &mut answers,
///     values: &mut values,
/// })?;
/// assert_eq!(answers.map(Refusal::of), [Some(Refusal::UNKNOWN_EDITION), None]);
/// assert_eq!(replayed.read, Ok(Facts { access: access::CLOSED, ..facts }));
/// assert_eq!(replayed.decoded, Ok(1));
/// assert_eq!(values, [0.12557077, 0.5, -0.5]);
/// # Ok::<(), Refusal>(())
/// ```
#[inline]
pub fn replay(history: History) -> Result<Replayed, Refusal> {
    let History {
        first,
        facts,
        editions,
        lengths,
        last,
        packed,
        card,
        outputs,
        answers,
        values,
    } = history;
    let mut read = [0; 1 + Layout::SIZE + Facts::NUMBERS];
    let mut decoded = [0; 2];
    // SAFETY: the pointers are to as many elements as the lengths say, and nothing
    // else uses the outputs.
    accepted(unsafe {
        ffi::imurraqi_replay(
            first,
            &facts.layout.to_bytes(),
            facts.width,
            facts.height,
            facts.item,
            facts.access,
            card.as_mut_ptr(),
            card.len(),
            editions.as_ptr(),
            editions.len(),
            lengths.as_ptr(),
            lengths.len(),
            outputs.as_mut_ptr(),
            outputs.len(),
            answers.as_mut_ptr(),
            answers.len(),
            last,
            packed.as_ptr(),
            packed.len(),
            values.as_mut_ptr(),
            values.len(),
            &mut read,
            &mut decoded,
        )
    })?;
    // The first number of each is 0 or that of its refusal; the layout's are bytes.
    let layout = array::from_fn(|place| read[1 + place] as u8);
    let numbers = array::from_fn(|place| read[1 + Layout::SIZE + place]);
    let [refused, points] = decoded;
    Ok(Replayed {
        read: unless(read[0], Facts::read(layout, numbers)),
        decoded: unless(refused, points as usize),
    })
}

/// What is read or counted, if the number is 0; else the refusal.
#[inline]
fn unless<T>(refused: u64, told: T) -> Result<T, Refusal> {
    match Refusal::of(refused as u8) {
        None => Ok(told),
        Some(refusal) => Err(refusal),
    }
}
