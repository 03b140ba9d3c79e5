//! What mistakes in reading cards share.

use crate::card::{expected_read, Card};
use crate::guarded::Guarded;
use crate::library::card::{CardRead, Told};
use crate::library::Library;
use crate::plain::card::{Row, READING};

use super::{Wrong, REFERENCE};

/// The rows of a reading.
pub const LENGTH: usize = 0;
pub const KNOWN_EDITION: usize = 1;
pub const BYTE_0_IS_0: usize = 2;
pub const TOO_NEW: usize = 3;
pub const ODD_WIDTH: usize = 5;
pub const ACCESS_ABOVE_2: usize = 6;
pub const LAST_BYTES: usize = 7;

pub const fn reads(mistake: &'static str, card_read: CardRead) -> Wrong {
    let library = Library {
        card_read,
        ..REFERENCE
    };
    (mistake, library)
}

/// These rows in this order.
pub fn rows<const COUNT: usize>(order: [usize; COUNT]) -> [Row; COUNT] {
    order.map(|row| READING[row])
}

/// All rows, with one in the place of another.
pub fn exchanged(place: usize, row: Row) -> [Row; READING.len()] {
    let mut rows = READING;
    rows[place] = row;
    rows
}

/// Reads a changed copy. The change is made only if the length is right.
pub fn changed(
    card: &mut Guarded<u8>,
    edition: u8,
    told: &mut Told,
    change: impl FnOnce(&mut Card),
) -> i64 {
    match Card::try_from(card.elements()) {
        Ok(mut copy) => {
            change(&mut copy);
            expected_read(&mut Guarded::holding(&copy), edition, told)
        }
        Err(_) => expected_read(card, edition, told),
    }
}
