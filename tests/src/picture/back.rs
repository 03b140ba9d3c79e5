//! Full-range R'G'B' that is exported and imported returns its codes, in a closed card.

use reference::card::{Facts, CLOSED};

use crate::card::KNOWN_EDITIONS;
use crate::guarded::Guarded;
use crate::layouts::{self, DEPTH, MODEL, OWN, PRIMARIES, RANGE, SAMPLING};
use crate::library::card::Told;
use crate::library::picture::Imported;
use crate::library::{Layout, Library};
use crate::random::Random;
use crate::tally::{Flow, Tally};

use super::shots::{facts, lengths, open, random_bytes, side_by_side};

const SIDES: [[u16; 2]; 4] = [[1, 1], [5, 3], [4, 16], [43, 3]];

/// By the library alone: export, import, the codes of both, and the card at every edition.
pub fn there_and_back(library: &Library, tally: &mut Tally) -> Flow {
    let mut random = Random::new();
    for (turn, mut layout) in layouts::chosen().enumerate() {
        layout[MODEL] = 1;
        layout[RANGE] = 2;
        let sides = SIDES[turn % SIDES.len()];
        let shot = facts(layout, sides, turn);
        let [packed, file] = lengths(&shot);
        let mut packed = Guarded::holding(&random_bytes(&mut random, packed));
        let points = usize::from(shot.width) * usize::from(shot.height);

        let mut card = Guarded::holding(&open(layout, sides, turn));
        let mut out = Guarded::new(file);
        let exported = (library.ppm_export)(&mut card, 4, &mut packed, &mut out);
        let told = (library.ppm_import_len)(&mut out);
        let mut made = Imported::new(usize::try_from(told).unwrap_or(0));
        let item = shot.item ^ 1 << 40;
        let imported = (library.ppm_import)(&mut out, item, layout[PRIMARIES], &mut made);
        tally.compare([exported, imported] == [points as i64; 2], || {
            format!("{layout:?}, {sides:?}: exported {exported}, imported {imported}")
        })?;

        let plain = side_by_side(1, layout[PRIMARIES], 2, layout[DEPTH]);
        let given = codes(library, layout, packed.elements(), points);
        let back = codes(library, plain, made.packed.elements(), points);
        tally.compare(given == back, || {
            format!("{layout:?}, {sides:?}: other codes come back")
        })?;
        let closed = Facts {
            layout: plain,
            item,
            access: CLOSED,
            ..shot
        };
        closed_at_each(library, tally, &mut made.card, closed)?;
    }
    Flow::Continue(())
}

fn codes(library: &Library, layout: Layout, packed: &[u8], points: usize) -> Guarded<u16> {
    assert_eq!(layout[SAMPLING], OWN);
    let mut codes = Guarded::new(3 * points);
    (library.unpack_line)(layout, packed, &mut codes);
    codes
}

/// Every edition that reads the card shows these facts. Edition 1 has no 12 bits.
fn closed_at_each(
    library: &Library,
    tally: &mut Tally,
    card: &mut Guarded<u8>,
    facts: Facts,
) -> Flow {
    for edition in KNOWN_EDITIONS {
        let (mut told, mut must_be) = (Told::new(), Told::new());
        let answer = (library.card_read)(card, edition, &mut told);
        let expected = match (facts.layout[DEPTH], edition) {
            (12, 1) => -8,
            _ => {
                must_be.store(facts);
                0
            }
        };
        tally.compare(answer == expected && told == must_be, || {
            format!("the imported card of {facts:?} at {edition}: {answer}")
        })?;
    }
    Flow::Continue(())
}
