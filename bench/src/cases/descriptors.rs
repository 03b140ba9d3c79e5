//! Descriptors of any layouts.

use super::{label, MANY};
use crate::case::Case;
use crate::library;
use crate::plain;
use crate::plain::descriptors::BYTES;
use crate::plain::layout::Numbers;
use crate::random::Random;

/// A byte of each part, changed: so refusals 2 to 6 are met.
const PLACES: [usize; 6] = [0, 8, 12, 27, 30, 36];

pub fn cases() -> Result<Vec<Case>, String> {
    let mut random = Random::new();
    let layouts: Vec<Numbers> = (0..MANY).map(|_| random.layout()).collect();
    let descriptors: Vec<Vec<u8>> = layouts.iter().map(|layout| written(*layout)).collect();
    let mut wrong = vec![descriptors[0][1..].to_vec()];
    for place in PLACES {
        let mut bytes = descriptors[0].clone();
        bytes[place] ^= 0x80;
        wrong.push(bytes);
    }
    let read = Case::calls(
        label("descriptor_read", "76 bytes", "any layouts"),
        descriptors,
        &wrong,
        Numbers::default(),
        [
            |bytes, layout| library::descriptors::read(bytes, layout),
            |bytes, layout| plain::descriptors::read(bytes, layout),
        ],
    )?;
    let outside = [2, 5, 1, 8, 3, 0, 8, 16, 0];
    let asked = |layout: &Numbers| (*layout, BYTES);
    let write = Case::calls(
        label("descriptor_write", "76 bytes", "any layouts"),
        layouts.iter().map(asked).collect(),
        &[
            (outside, BYTES),
            (random.groups(), BYTES),
            (layouts[0], BYTES - 1),
        ],
        [0; BYTES],
        [
            |(layout, length), out| library::descriptors::write(*layout, &mut out[..*length]),
            |(layout, length), out| plain::descriptors::write(*layout, &mut out[..*length]),
        ],
    )?;
    Ok(vec![read, write])
}

fn written(layout: Numbers) -> Vec<u8> {
    let mut bytes = vec![0; BYTES];
    plain::descriptors::write(layout, &mut bytes);
    bytes
}
