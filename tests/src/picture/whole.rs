//! The largest picture. The reference would be slow with it; but full-range R'G'B' of 8 bits
//! stays as it is, and of groups there are few kinds here, each of which it is asked once.

use reference::card::OPEN;
use reference::pictures;

use crate::card::cards;
use crate::guarded::Guarded;
use crate::layouts::group;
use crate::library::picture::Imported;
use crate::library::Library;
use crate::random::Random;
use crate::tally::{Flow, Tally};

use super::shots::{header, lengths, open, random_bytes, side_by_side};

const SIDE: u16 = 4096;
const POINTS: usize = 1 << 24;
const ANSWER: i64 = 1 << 24;

/// Kinds of groups, a number that has nothing in common with that of a block's points.
const KINDS: usize = 251;

pub fn largest(library: &Library, tally: &mut Tally) -> Flow {
    as_it_is(library, tally)?;
    groups(library, tally)
}

/// Exported, the file is the header and the packed bytes; imported, these come back.
fn as_it_is(library: &Library, tally: &mut Tally) -> Flow {
    let layout = side_by_side(1, 1, 2, 8);
    let mut card = Guarded::holding(&open(layout, [SIDE; 2], 0));
    let mut random = Random::new();
    let block = random_bytes(&mut random, 3 * 4099);
    let bytes: Vec<u8> = block.into_iter().cycle().take(3 * POINTS).collect();
    let header = header([SIDE; 2], 255);
    let mut packed = Guarded::holding(&bytes);
    let mut file = Guarded::new(header.len() + bytes.len());
    let answer = (library.ppm_export)(&mut card, 2, &mut packed, &mut file);
    let is_right = file.elements().strip_prefix(header.as_bytes()) == Some(&bytes);
    tally.compare(answer == ANSWER && is_right, || {
        format!("the largest picture is exported otherwise: {answer}")
    })?;
    let mut made = Imported::new(bytes.len());
    let answer = (library.ppm_import)(&mut file, 7, 1, &mut made);
    let is_right = made.packed.elements() == bytes;
    tally.compare(answer == ANSWER && is_right, || {
        format!("the largest picture is imported otherwise: {answer}")
    })
}

/// Each kind of group makes the six bytes that it makes in a picture of its own.
fn groups(library: &Library, tally: &mut Tally) -> Flow {
    let layout = group(2, 1);
    let mut random = Random::new();
    let kinds = random_bytes(&mut random, 4 * KINDS);
    let alone = open(layout, [2, 1], 0);
    let made: Vec<u8> = kinds
        .chunks(4)
        .flat_map(|group| {
            let mut file = [0; 17];
            let points = pictures::export(&alone, 4, group, &mut file);
            assert_eq!(points.ok(), Some(2));
            file[11..].to_vec()
        })
        .collect();
    let shot = reference::card::Facts {
        access: OPEN,
        ..super::shots::facts(layout, [SIDE; 2], 0)
    };
    let [packed, length] = lengths(&shot);
    let bytes: Vec<u8> = kinds.into_iter().cycle().take(packed).collect();
    let header = header([SIDE; 2], 255);
    let mut file = Guarded::new(length);
    let mut card = Guarded::holding(&cards::card(shot));
    let mut packed = Guarded::holding(&bytes);
    let answer = (library.ppm_export)(&mut card, 4, &mut packed, &mut file);
    let points = file.elements().strip_prefix(header.as_bytes());
    let is_right = points.is_some_and(|points| {
        let must_be = made.chunks(6).cycle();
        points.len() == 3 * POINTS
            && points
                .chunks(6)
                .zip(must_be)
                .all(|(one, other)| one == other)
    });
    tally.compare(answer == ANSWER && is_right, || {
        format!("the largest picture of groups is exported otherwise: {answer}")
    })
}
