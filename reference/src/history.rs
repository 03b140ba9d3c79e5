//! The history of one card: the paper's "The book of one card".
//!
//! The book never reads a card. It knows the first facts, and keeps the card last
//! written and one access.

use crate::card::{self, Facts, CLOSED, SIZE};
use crate::layout::Layout;
use crate::lines;
use crate::refusal::Refusal;

pub struct Book {
    facts: Facts,
    card: [u8; SIZE],
    access: u8,
}

impl Book {
    /// The book of a card that is first written from facts at an edition, if they
    /// are valid there.
    pub fn new(edition: u8, facts: Facts) -> Result<Book, Refusal> {
        Ok(Book {
            facts,
            card: written(edition, facts)?,
            access: facts.access,
        })
    }

    /// The card last written.
    pub fn card(&self) -> &[u8; SIZE] {
        &self.card
    }

    /// A rewrite at an edition into a room.
    pub fn rewrite(&mut self, edition: u8, room: &mut [u8]) -> Result<(), Refusal> {
        self.asked(edition)?;
        if room.len() != SIZE {
            return Err(Refusal::Length);
        }
        self.access = self.access_at(edition);
        self.card = written(edition, self.shown(self.access))?;
        room.copy_from_slice(&self.card);
        Ok(())
    }

    /// The last reading.
    pub fn read(&self, edition: u8) -> Result<Facts, Refusal> {
        self.asked(edition)?;
        Ok(self.shown(self.access_at(edition)))
    }

    /// A line decoded by the layout of an accepted last reading, which is the first.
    pub fn decode(&self, packed: &[u8], values: &mut [u32]) -> Result<usize, Refusal> {
        lines::decode_line(self.facts.layout, packed, values)
    }

    /// Refuses an edition that is not known, or is too early for the first layout.
    fn asked(&self, edition: u8) -> Result<(), Refusal> {
        card::known(edition)?;
        if edition < card::least_edition(Layout::new(self.facts.layout)?) {
            return Err(Refusal::TooNew);
        }
        Ok(())
    }

    /// The book's access, where the edition has any.
    fn access_at(&self, edition: u8) -> u8 {
        if card::has_access(edition) {
            self.access
        } else {
            CLOSED
        }
    }

    fn shown(&self, access: u8) -> Facts {
        Facts {
            access,
            ..self.facts
        }
    }
}

/// The card that the table gives for facts, written at an edition.
fn written(edition: u8, facts: Facts) -> Result<[u8; SIZE], Refusal> {
    let mut card = [0; SIZE];
    card::write(edition, facts, &mut card)?;
    Ok(card)
}

#[cfg(test)]
mod tests {
    use super::Book;
    use crate::card::{Facts, CLOSED, OPEN, SIZE};
    use crate::refusal::Refusal;

    const FACTS: Facts = Facts {
        layout: [2, 2, 1, 10, 4, 0, 10, 20, 0],
        width: 720,
        height: 576,
        item: 7,
        access: OPEN,
    };

    #[test]
    fn open_until_edition_1_has_it() {
        let mut book = Book::new(2, FACTS).unwrap();
        let mut room = [0xff; SIZE];
        assert_eq!(book.rewrite(5, &mut room), Err(Refusal::Edition));
        assert_eq!(book.rewrite(1, &mut room[1..]), Err(Refusal::Length));
        assert_eq!(room, [0xff; SIZE]);
        assert_eq!(book.rewrite(2, &mut room), Ok(()));
        assert_eq!(book.rewrite(3, &mut room), Ok(()));
        assert_eq!(book.rewrite(4, &mut room), Ok(()));
        assert_eq!(book.read(2), Ok(FACTS));
        assert_eq!(book.read(4), Ok(FACTS));
        assert_eq!(book.read(1).map(|facts| facts.access), Ok(CLOSED));
        assert_eq!(book.rewrite(1, &mut room), Ok(()));
        assert_eq!(book.rewrite(2, &mut room), Ok(()));
        assert_eq!(book.read(2).map(|facts| facts.access), Ok(CLOSED));
        assert_eq!(&room, book.card());
    }

    #[test]
    fn twelve_bits() {
        let facts = Facts {
            layout: [2, 2, 1, 12, 5, 0, 12, 24, 0],
            ..FACTS
        };
        assert_eq!(Book::new(1, facts).err(), Some(Refusal::EditionLacks));
        let mut book = Book::new(2, facts).unwrap();
        assert_eq!(book.rewrite(1, &mut []), Err(Refusal::TooNew));
        assert_eq!(book.read(1), Err(Refusal::TooNew));
        assert_eq!(book.read(2), Ok(facts));
    }

    #[test]
    fn the_older_full_range() {
        let facts = Facts {
            layout: [2, 2, 3, 10, 4, 0, 10, 20, 0],
            ..FACTS
        };
        assert_eq!(Book::new(2, facts).err(), Some(Refusal::EditionLacks));
        let mut book = Book::new(3, facts).unwrap();
        assert_eq!(book.rewrite(2, &mut []), Err(Refusal::TooNew));
        assert_eq!(book.rewrite(3, &mut []), Err(Refusal::Length));
        assert_eq!(book.read(1), Err(Refusal::TooNew));
        assert_eq!(book.read(3), Ok(facts));
    }

    #[test]
    fn groups() {
        let facts = Facts {
            layout: [2, 2, 1, 8, 4, 0, 0, 0, 1],
            ..FACTS
        };
        let odd = Facts {
            width: 719,
            ..facts
        };
        assert_eq!(Book::new(3, facts).err(), Some(Refusal::EditionLacks));
        assert_eq!(Book::new(4, odd).err(), Some(Refusal::OddCount));
        let mut book = Book::new(4, facts).unwrap();
        assert_eq!(book.rewrite(3, &mut []), Err(Refusal::TooNew));
        assert_eq!(book.rewrite(4, &mut [0; SIZE]), Ok(()));
        assert_eq!(book.read(3), Err(Refusal::TooNew));
        assert_eq!(book.read(4), Ok(facts));
        // Two points a group.
        let mut values = [0; 6];
        assert_eq!(book.decode(&[128, 235, 128, 16], &mut values), Ok(2));
        assert_eq!(values.map(f32::from_bits), [1.0, 0.0, 0.0, 0.0, 0.0, 0.0]);
        assert_eq!(book.decode(&[128, 235], &mut values), Err(Refusal::Length));
    }
}
