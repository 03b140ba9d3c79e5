//! Descriptors written out by hand from the paper, with single changes and what
//! they must answer. The library and the reference are both compared with them.

use crate::guarded::Outcome;
use crate::layouts::group;
use crate::library::{Layout, Library};
use crate::tally::{Flow, Tally};
use crate::wrong::REFERENCE;

use super::{Descriptor, SIZE};

/// RGB, full, 8 bits, in channel order.
const RGB: (Layout, Descriptor) = (
    [1, 1, 2, 8, 3, 0, 8, 16, 0],
    [
        76, 0, 0, 0, 0, 0, 0, 0, 1, 0, 72, 0, // header
        1, 1, 3, 0, // model, primaries, transfer, flags
        0, 0, 0, 0, 3, 0, 0, 0, 0, 0, 0, 0, // dimensions, planes
        0, 0, 7, 0, 0, 0, 0, 0, 0, 0, 0, 0, 255, 0, 0, 0, // R'
        8, 0, 7, 1, 0, 0, 0, 0, 0, 0, 0, 0, 255, 0, 0, 0, // G'
        16, 0, 7, 2, 0, 0, 0, 0, 0, 0, 0, 0, 255, 0, 0, 0, // B'
    ],
);

/// Y'CbCr, narrow, 10 bits, Cb lowest: 64 to 960 for Cb and Cr, to 940 for Y'.
const YCBCR: (Layout, Descriptor) = (
    [2, 4, 1, 10, 4, 10, 0, 20, 0],
    [
        76, 0, 0, 0, 0, 0, 0, 0, 1, 0, 72, 0, // header
        2, 4, 3, 0, // model, primaries, transfer, flags
        0, 0, 0, 0, 4, 0, 0, 0, 0, 0, 0, 0, // dimensions, planes
        0, 0, 9, 1, 0, 0, 0, 0, 64, 0, 0, 0, 0xc0, 3, 0, 0, // Cb
        10, 0, 9, 0, 0, 0, 0, 0, 64, 0, 0, 0, 0xac, 3, 0, 0, // Y'
        20, 0, 9, 2, 0, 0, 0, 0, 64, 0, 0, 0, 0xc0, 3, 0, 0, // Cr
    ],
);

/// Y'CbCr in the older full range, 10 bits, Cr lowest: 0 to 1024 for all.
const OLDER: (Layout, Descriptor) = (
    [2, 2, 3, 10, 5, 30, 20, 0, 0],
    [
        76, 0, 0, 0, 0, 0, 0, 0, 1, 0, 72, 0, // header
        2, 2, 3, 0, // model, primaries, transfer, flags
        0, 0, 0, 0, 5, 0, 0, 0, 0, 0, 0, 0, // dimensions, planes
        0, 0, 9, 2, 0, 0, 0, 0, 0, 0, 0, 0, 0, 4, 0, 0, // Cr
        20, 0, 9, 1, 0, 0, 0, 0, 0, 0, 0, 0, 0, 4, 0, 0, // Cb
        30, 0, 9, 0, 0, 0, 0, 0, 0, 0, 0, 0, 0, 4, 0, 0, // Y'
    ],
);

/// Layouts without a descriptor: groups, points as if they shared their colour, and a
/// sampling that is not known.
const WITHOUT: [Layout; 5] = [
    group(1, 1),
    group(2, 2),
    group(4, 3),
    [2, 2, 1, 8, 4, 0, 8, 16, 1],
    [1, 1, 2, 8, 3, 0, 8, 16, 2],
];

/// A descriptor with some bytes changed, and what it must answer.
struct Changed {
    name: &'static str,
    descriptor: Descriptor,
    /// Places and what they hold now.
    bytes: &'static [(usize, u8)],
    answer: i64,
}

const fn changed(
    name: &'static str,
    (_, descriptor): (Layout, Descriptor),
    bytes: &'static [(usize, u8)],
    answer: i64,
) -> Changed {
    Changed {
        name,
        descriptor,
        bytes,
        answer,
    }
}

const CHANGED: [Changed; 22] = [
    changed("a total size of 77", RGB, &[(0, 77)], -2),
    changed("version 2", RGB, &[(8, 2)], -2),
    changed("model 3", RGB, &[(12, 3)], -3),
    changed("sRGB transfer", RGB, &[(14, 2)], -3),
    changed("texels of two points", RGB, &[(16, 1)], -4),
    changed("a second plane", RGB, &[(21, 3)], -4),
    changed("2 bytes a point", RGB, &[(20, 2)], -4),
    changed("272 for 16", RGB, &[(61, 1)], -5),
    changed("a linear sample", RGB, &[(31, 0x10)], -5),
    changed("fields that overlap", YCBCR, &[(44, 9)], -5),
    changed("channels exchanged", YCBCR, &[(31, 0), (47, 1)], -6),
    changed("235s for 240s", YCBCR, &[(40, 0xac)], -6),
    changed("both 5 and 6", RGB, &[(40, 0), (61, 1)], -5),
    changed("both 2 and 5", RGB, &[(61, 1), (11, 1)], -2),
    // 2^n - 1 is full, 2^n is the older full, and neither is 2^n + 1.
    changed("1023 in one", OLDER, &[(40, 255), (41, 3)], -6),
    changed(
        "1023 in two",
        OLDER,
        &[(40, 255), (41, 3), (56, 255), (57, 3)],
        -6,
    ),
    changed(
        "1023 in all",
        OLDER,
        &[(40, 255), (41, 3), (56, 255), (57, 3), (72, 255), (73, 3)],
        0,
    ),
    changed("1025 in all", OLDER, &[(40, 1), (56, 1), (72, 1)], -6),
    changed("256 of 8 bits", OLDER, &[(41, 1), (57, 1), (73, 1)], -6),
    changed("from 1 on", OLDER, &[(36, 1), (52, 1), (68, 1)], -6),
    changed("256 in one", RGB, &[(40, 0), (41, 1)], -6),
    changed(
        "256 in all",
        RGB,
        &[(40, 0), (41, 1), (56, 0), (57, 1), (72, 0), (73, 1)],
        0,
    ),
];

pub fn written_out(library: &Library, tally: &mut Tally) -> Flow {
    for (program, library) in [("library", library), ("reference", &REFERENCE)] {
        for (layout, descriptor) in [RGB, YCBCR, OLDER] {
            let mut written = Outcome::of(SIZE, |out| (library.descriptor_write)(layout, out));
            tally.compare(written.output.output() == descriptor, || {
                format!("{program}: {layout:?} is written otherwise")
            })?;
            let mut read = read(library, &descriptor);
            tally.compare(read.answer == 0 && read.output.output() == layout, || {
                format!("{program}: the descriptor of {layout:?} is read otherwise")
            })?;
        }
        for layout in WITHOUT {
            for room in [SIZE, SIZE - 1, 0] {
                let written = Outcome::of(room, |out| (library.descriptor_write)(layout, out));
                let refused = Outcome::of(room, |_| -9);
                tally.compare(written == refused, || {
                    format!("{program}: {layout:?}: {}", written.unlike(&refused))
                })?;
            }
        }
        for changed in &CHANGED {
            let mut bytes = changed.descriptor;
            for &(place, byte) in changed.bytes {
                bytes[place] = byte;
            }
            let answer = read(library, &bytes).answer;
            tally.compare(answer == changed.answer, || {
                format!(
                    "{}, {program}: answer {answer}, must be {}",
                    changed.name, changed.answer
                )
            })?;
        }
    }
    Flow::Continue(())
}

fn read(library: &Library, bytes: &[u8]) -> Outcome<u8> {
    Outcome::of(size_of::<Layout>(), |out| {
        (library.descriptor_read)(bytes, out)
    })
}
