//! Headers of files, of our form and of others.

use crate::library::Library;
use crate::random::Random;
use crate::tally::{Flow, Tally};

use super::shots::{file, header, random_codes, DEPTHS};
use super::{compare_import_len, compare_imported};

/// Headers that differ from ours in one way each, with the points of a picture of one by two.
const OTHERS: [&str; 60] = [
    "P5\n1 2\n255\n",
    "P3\n1 2\n255\n",
    "P7\n1 2\n255\n",
    "p6\n1 2\n255\n",
    "6P\n1 2\n255\n",
    "P66\n1 2\n255\n",
    " P6\n1 2\n255\n",
    "\nP6\n1 2\n255\n",
    "P6 1 2\n255\n",
    "P6\r\n1 2\n255\n",
    "P6 \n1 2\n255\n",
    "P6\n\n1 2\n255\n",
    "P6\n 1 2\n255\n",
    "P6\n1 2\r\n255\n",
    "P6\n1 2 \n255\n",
    "P6\n1 2\n\n255\n",
    "P6\n1 2\n 255\n",
    "P6\n1 2\n255\r\n",
    "P6\n1 2\n255 ",
    "P6\n1 2\n255 \n",
    "P6\n1 2\n255\t",
    "P6\n1  2\n255\n",
    "P6\n1\t2\n255\n",
    "P6\n1\n2\n255\n",
    "P6\n1\r2\n255\n",
    "P6\n1,2\n255\n",
    "P6\n1x2\n255\n",
    "P6\n1 2 255\n",
    "P6\n1 2 255 ",
    "P6\n1 2\t255\n",
    "P6\n# one\n1 2\n255\n",
    "P6\n1 2\n# one\n255\n",
    "P6\n1 2 # one\n255\n",
    "P6\n1 2\n255 # one\n",
    "P6#\n1 2\n255\n",
    "P6\n01 2\n255\n",
    "P6\n1 02\n255\n",
    "P6\n1 2\n0255\n",
    "P6\n0001 2\n255\n",
    "P6\n00001 2\n255\n",
    "P6\n+1 2\n255\n",
    "P6\n1 +2\n255\n",
    "P6\n1 2\n+255\n",
    "P6\n-1 2\n255\n",
    "P6\n1 -2\n255\n",
    "P6\n1.0 2\n255\n",
    "P6\n1 2\n255.\n",
    "P6\n1 2\n0xff\n",
    "P6\n0x1 2\n255\n",
    "P6\n1e0 2\n255\n",
    "P6\n 2\n255\n",
    "P6\n1 \n255\n",
    "P6\n1 2\n\n",
    "P6\n1\n255\n",
    "P6\n1 2 3\n255\n",
    "P6\n1 2\n255 255\n",
    "P6\n2\n1 255\n",
    "P6\n255\n1 2\n",
    "\u{feff}P6\n1 2\n255\n",
    "P6\n1 2\n255\u{0}",
];

/// With numbers that are none of ours.
const NUMBERS: [&str; 40] = [
    "P6\n0 2\n255\n",
    "P6\n1 0\n255\n",
    "P6\n0 0\n255\n",
    "P6\n00 2\n255\n",
    "P6\n4097 2\n255\n",
    "P6\n1 4097\n255\n",
    "P6\n9999 1\n255\n",
    "P6\n1 9999\n255\n",
    "P6\n10000 1\n255\n",
    "P6\n40960 1\n255\n",
    "P6\n1 40960\n255\n",
    "P6\n32769 2\n255\n",
    "P6\n65535 2\n255\n",
    "P6\n65536 2\n255\n",
    "P6\n65537 2\n255\n",
    "P6\n1 65538\n255\n",
    "P6\n4294967297 2\n255\n",
    "P6\n1 4294967298\n255\n",
    "P6\n18446744073709551617 2\n255\n",
    "P6\n1 18446744073709551618\n255\n",
    "P6\n1 2\n0\n",
    "P6\n1 2\n1\n",
    "P6\n1 2\n15\n",
    "P6\n1 2\n127\n",
    "P6\n1 2\n254\n",
    "P6\n1 2\n256\n",
    "P6\n1 2\n511\n",
    "P6\n1 2\n1022\n",
    "P6\n1 2\n1024\n",
    "P6\n1 2\n2047\n",
    "P6\n1 2\n4092\n",
    "P6\n1 2\n4094\n",
    "P6\n1 2\n4096\n",
    "P6\n1 2\n16383\n",
    "P6\n1 2\n65535\n",
    "P6\n1 2\n65791\n",
    "P6\n1 2\n66559\n",
    "P6\n1 2\n2550\n",
    "P6\n1 2\n4294967551\n",
    "P6\n1 2\n18446744073709551871\n",
];

/// Each with no points, with those of 8 bits and with those of more.
pub fn other_forms(library: &Library, tally: &mut Tally) -> Flow {
    for header in OTHERS.into_iter().chain(NUMBERS) {
        for points in [0, 1, 5, 6, 7, 11, 12, 13, 24] {
            let ppm = [header.as_bytes(), &[1; 24][..points]].concat();
            compare_imported(library, tally, &ppm, (7, 1))?;
        }
    }
    Flow::Continue(())
}

/// Files of each depth and of one to four digits a side, with their headers changed.
pub fn changed(library: &Library, tally: &mut Tally) -> Flow {
    let mut random = Random::new();
    for (sides, depth) in [([1, 2], 8), ([2, 1], 10), ([3, 1], 12), ([10, 2], 12)] {
        let codes = random_codes(&mut random, sides, depth);
        let ppm = file(sides, depth, &codes);
        let header = header(sides, (1 << depth) - 1).len();
        every_change(library, tally, &ppm, header)?;
        // Every prefix, into the points too.
        for length in 0..=ppm.len() {
            compare_imported(library, tally, &ppm[..length], (7, 1))?;
        }
    }
    // Headers of larger pictures, of which only the length is told.
    for sides in [[12, 345], [4096, 4096], [999, 1000], [4095, 1]] {
        for depth in DEPTHS {
            let header = header(sides, (1 << depth) - 1);
            let length = header.len();
            every_change(library, tally, header.as_bytes(), length)?;
        }
    }
    Flow::Continue(())
}

/// Each byte of the header replaced by every other, doubled, left out, exchanged with the next,
/// and with another before it.
fn every_change(library: &Library, tally: &mut Tally, ppm: &[u8], header: usize) -> Flow {
    let mut compare = |ppm: &[u8]| compare_imported(library, tally, ppm, (7, 1));
    compare(ppm)?;
    for place in 0..header {
        for byte in 0..=u8::MAX {
            let mut changed = ppm.to_vec();
            changed[place] = byte;
            compare(&changed)?;
        }
        let (before, after) = ppm.split_at(place);
        compare(&[before, &after[..1], after].concat())?;
        compare(&[before, &after[1..]].concat())?;
        if place + 1 < header {
            let mut changed = ppm.to_vec();
            changed.swap(place, place + 1);
            compare(&changed)?;
        }
        for byte in *b" \n\r\t#0129+-.\0P\xff" {
            compare(&[before, &[byte], after].concat())?;
        }
        compare(&[before, b"# comment\n", after].concat())?;
    }
    Flow::Continue(())
}

/// Every width, height and largest code up to some above those that are taken, and some far
/// above.
pub fn numbers(library: &Library, tally: &mut Tally) -> Flow {
    let far = [65_535, 65_536, 65_537, 69_632, 1 << 32, (1 << 32) + 1];
    for side in (0..=4200_u64).chain((4200..20_000).step_by(97)).chain(far) {
        for ppm in [
            format!("P6\n{side} 1\n255\n"),
            format!("P6\n1 {side}\n1023\n"),
            format!("P6\n{side} {side}\n4095\n"),
        ] {
            compare_import_len(library, tally, ppm.as_bytes())?;
        }
    }
    let far = [65_536 + 255, 65_536 + 1023, (1 << 32) + 255];
    for largest in (0..=70_000_u64).chain(far) {
        let ppm = format!("P6\n3 2\n{largest}\n");
        compare_import_len(library, tally, ppm.as_bytes())?;
    }
    Flow::Continue(())
}
