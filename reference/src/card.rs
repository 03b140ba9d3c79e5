//! Cards: the paper's "Card, 32 bytes".

use crate::layout::{Layout, Numbers};
use crate::refusal::Refusal;

pub const SIZE: usize = 32;

/// The newest edition. Editions are known from 1 to it.
pub const NEWEST: u8 = 4;

const GREATEST_SIDE: u16 = 4096;

/// The access numbers, which editions from 2 on have, are those up to open.
pub const CLOSED: u8 = 0;
pub const COMMUNITY: u8 = 1;
pub const OPEN: u8 = 2;

/// The first of the bytes that edition 1 does not know.
const ACCESS: usize = 24;

/// What a card tells. A reading gives facts inside the paper; a writing is given
/// any numbers.
#[derive(Clone, Copy, Debug, PartialEq, Eq)]
pub struct Facts {
    pub layout: Numbers,
    pub width: u16,
    pub height: u16,
    pub item: u64,
    pub access: u8,
}

/// The facts of a card as an edition reads them.
pub fn read(bytes: &[u8], edition: u8) -> Result<Facts, Refusal> {
    let Ok(card) = <[u8; SIZE]>::try_from(bytes) else {
        return Err(Refusal::Size);
    };
    known(edition)?;
    let [least, written, ..] = card;
    if least == 0 {
        return Err(Refusal::Outside);
    }
    if least > edition {
        return Err(Refusal::TooNew);
    }
    let silent = Facts {
        layout: [2, 3, 4, 5, 6, 8, 9, 10, 7].map(|place| card[place]),
        width: number(&card[12..14]) as u16,
        height: number(&card[14..16]) as u16,
        item: number(&card[16..24]),
        access: CLOSED,
    };
    let layout = silent.inside()?;
    if least != least_edition(layout) || written < least || card[11] != 0 {
        return Err(Refusal::Outside);
    }
    silent.of_pairs(layout)?;
    let access = access(&card[ACCESS..], written, edition)?;
    Ok(Facts { access, ..silent })
}

/// Fills `out` with the card of these facts, written at an edition.
pub fn write(edition: u8, facts: Facts, out: &mut [u8]) -> Result<(), Refusal> {
    known(edition)?;
    let layout = facts.inside()?;
    facts.of_pairs(layout)?;
    let lacks_access = !has_access(edition) && facts.access != CLOSED;
    if edition < least_edition(layout) || lacks_access {
        return Err(Refusal::EditionLacks);
    }
    if out.len() != SIZE {
        return Err(Refusal::Length);
    }
    out.copy_from_slice(&bytes(edition, facts, layout));
    Ok(())
}

/// A reading at an edition followed by a writing at it.
pub fn rewrite(card: &[u8], edition: u8, out: &mut [u8]) -> Result<(), Refusal> {
    write(edition, read(card, edition)?, out)
}

/// Refuses an edition that is not 1 to 4.
pub fn known(edition: u8) -> Result<(), Refusal> {
    match edition {
        1..=NEWEST => Ok(()),
        _ => Err(Refusal::Edition),
    }
}

/// Whether an edition has access: all do but the first.
pub fn has_access(edition: u8) -> bool {
    edition >= 2
}

/// The least edition that can read a card of this layout: the highest that its
/// sampling, its range or its depth needs.
pub(crate) fn least_edition(layout: Layout) -> u8 {
    match (layout.sampling, layout.range, layout.depth) {
        (1, _, _) => 4,
        (_, 3, _) => 3,
        (_, _, 12) => 2,
        _ => 1,
    }
}

/// The access that bytes 24 to 31 show, for a card written at one edition and
/// read at another.
fn access(bytes: &[u8], written: u8, edition: u8) -> Result<u8, Refusal> {
    let access = bytes[0];
    if !has_access(written) {
        // Silent about access, whoever reads it.
        return match bytes {
            [0, 0, 0, 0, 0, 0, 0, 0] => Ok(CLOSED),
            _ => Err(Refusal::Outside),
        };
    }
    if !has_access(edition) {
        return Ok(CLOSED);
    }
    if written > edition {
        // Written later than it is read.
        return Ok(if access > OPEN { CLOSED } else { access });
    }
    // The reader knows all that the writer knew, so the table holds.
    if access > OPEN {
        return Err(Refusal::Access);
    }
    if bytes[1..] != [0; 7] {
        return Err(Refusal::Outside);
    }
    Ok(access)
}

fn bytes(edition: u8, facts: Facts, layout: Layout) -> [u8; SIZE] {
    let mut card = [0; SIZE];
    card[0] = least_edition(layout);
    card[1] = edition;
    card[2] = layout.model;
    card[3] = layout.primaries;
    card[4] = layout.range;
    card[5] = layout.depth;
    card[6] = layout.bytes_a_point;
    card[7] = layout.sampling;
    card[8..11].copy_from_slice(&layout.offsets);
    card[12..14].copy_from_slice(&facts.width.to_le_bytes());
    card[14..16].copy_from_slice(&facts.height.to_le_bytes());
    card[16..24].copy_from_slice(&facts.item.to_le_bytes());
    card[ACCESS] = facts.access;
    card
}

impl Facts {
    /// The layout, if all the facts are inside the paper.
    fn inside(self) -> Result<Layout, Refusal> {
        let layout = Layout::new(self.layout)?;
        let inside = [self.width, self.height]
            .iter()
            .all(|side| (1..=GREATEST_SIDE).contains(side))
            && self.item != 0
            && self.access <= OPEN;
        if inside {
            Ok(layout)
        } else {
            Err(Refusal::Outside)
        }
    }

    /// Refuses a width that is not of whole groups.
    fn of_pairs(self, layout: Layout) -> Result<(), Refusal> {
        if usize::from(self.width).is_multiple_of(layout.points_each()) {
            Ok(())
        } else {
            Err(Refusal::OddCount)
        }
    }
}

/// The little-endian number of these bytes.
fn number(bytes: &[u8]) -> u64 {
    bytes
        .iter()
        .rev()
        .fold(0, |number, &byte| number << 8 | u64::from(byte))
}

#[cfg(test)]
mod tests {
    use super::{read, rewrite, write, Facts, CLOSED, OPEN, SIZE};
    use crate::refusal::Refusal;

    /// Item 7, open, 720 by 576.
    const FACTS: Facts = Facts {
        layout: [2, 2, 1, 10, 4, 0, 10, 20, 0],
        width: 720,
        height: 576,
        item: 7,
        access: OPEN,
    };

    const CARD: [u8; SIZE] = [
        1, 2, 2, 2, 1, 10, 4, 0, 0, 10, 20, 0, 0xd0, 2, 0x40, 2, 7, 0, 0, 0, 0, 0, 0, 0, 2, 0, 0,
        0, 0, 0, 0, 0,
    ];

    #[test]
    fn written_and_read() {
        let mut card = [0xff; SIZE];
        assert_eq!(write(2, FACTS, &mut card), Ok(()));
        assert_eq!(card, CARD);
        assert_eq!(read(&CARD, 2), Ok(FACTS));
    }

    #[test]
    fn closed_at_edition_1() {
        let closed = Facts {
            access: CLOSED,
            ..FACTS
        };
        assert_eq!(read(&CARD, 1), Ok(closed));
        let mut card = [0xff; SIZE];
        assert_eq!(rewrite(&CARD, 1, &mut card), Ok(()));
        assert_eq!([card[0], card[1], card[24]], [1, 1, CLOSED]);
        assert_eq!(read(&card, 2), Ok(closed));
    }

    #[test]
    fn unknown_access() {
        let mut card = CARD;
        card[24] = 3;
        assert_eq!(read(&card, 2), Err(Refusal::Access));
        assert_eq!(read(&card, 3), Err(Refusal::Access));
        // Written at 3, it is closed at 2, and at 3 it is not known.
        card[1] = 3;
        assert_eq!(read(&card, 2).map(|facts| facts.access), Ok(CLOSED));
        assert_eq!(read(&card, 3), Err(Refusal::Access));
        // Written at 4, it is closed at 3 too, and more may follow.
        card[1] = 4;
        card[31] = 1;
        assert_eq!(read(&card, 3).map(|facts| facts.access), Ok(CLOSED));
        assert_eq!(read(&card, 4), Err(Refusal::Access));
    }

    #[test]
    fn the_older_full_range() {
        let facts = Facts {
            layout: [2, 2, 3, 8, 3, 0, 8, 16, 0],
            ..FACTS
        };
        let mut card = [0xff; SIZE];
        for edition in [1, 2] {
            assert_eq!(write(edition, facts, &mut card), Err(Refusal::EditionLacks));
        }
        assert_eq!(write(3, facts, &mut card), Ok(()));
        assert_eq!([card[0], card[1], card[4]], [3, 3, 3]);
        assert_eq!(read(&card, 2), Err(Refusal::TooNew));
        assert_eq!(read(&card, 3), Ok(facts));
        // A byte 0 of 2 is another layout's.
        card[0] = 2;
        assert_eq!(read(&card, 3), Err(Refusal::Outside));
    }

    #[test]
    fn groups() {
        let facts = Facts {
            layout: [2, 2, 1, 8, 4, 0, 0, 0, 1],
            ..FACTS
        };
        let odd = Facts {
            width: 721,
            ..facts
        };
        let mut card = [0xff; SIZE];
        for edition in [1, 2, 3] {
            assert_eq!(write(edition, facts, &mut card), Err(Refusal::EditionLacks));
            assert_eq!(write(edition, odd, &mut card), Err(Refusal::OddCount));
        }
        assert_eq!(write(5, odd, &mut card), Err(Refusal::Edition));
        let without_item = Facts { item: 0, ..odd };
        assert_eq!(write(4, without_item, &mut card), Err(Refusal::Outside));
        assert_eq!(write(4, odd, &mut []), Err(Refusal::OddCount));
        assert_eq!(write(4, facts, &mut card), Ok(()));
        assert_eq!(card[..12], [4, 4, 2, 2, 1, 8, 4, 1, 0, 0, 0, 0]);
        assert_eq!(read(&card, 3), Err(Refusal::TooNew));
        assert_eq!(read(&card, 4), Ok(facts));
        // Next after the 9 for bytes 1 to 23, and before 10.
        card[12] = 0xd1;
        card[24] = 3;
        assert_eq!(read(&card, 4), Err(Refusal::OddCount));
        card[11] = 1;
        assert_eq!(read(&card, 4), Err(Refusal::Outside));
        // Points of their own may be in odd numbers, but need their offsets.
        card[..13].copy_from_slice(&[1, 4, 2, 2, 1, 8, 4, 0, 0, 8, 16, 0, 0xd1]);
        card[24] = 2;
        assert_eq!(read(&card, 4).map(|facts| facts.width), Ok(721));
        card[7] = 1;
        assert_eq!(read(&card, 4), Err(Refusal::Outside));
    }
}
