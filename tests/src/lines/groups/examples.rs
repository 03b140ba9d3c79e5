//! Groups worked out by hand from the request and the paper's formulas. The library and
//! the reference are both compared with them.

use crate::guarded::{Element, Outcome};
use crate::layouts::{group, OFFSETS, SAMPLING};
use crate::library::{Layout, Library, CUTS};
use crate::tally::{Flow, Tally};
use crate::wrong::REFERENCE;

struct Example {
    name: &'static str,
    layout: Layout,
    /// The floats that are encoded, and how many of them are cut.
    values: [f32; 6],
    cuts: u32,
    /// The codes that are packed.
    codes: [u16; 6],
    /// What is made of both: Cb, Y', Cr, Y'.
    packed: [u8; 4],
    /// What that is unpacked and decoded to.
    unpacked: [u16; 6],
    decoded: [f32; 6],
}

const EXAMPLES: [Example; 6] = [
    Example {
        name: "two points of one colour",
        layout: group(2, 1),
        values: [1.0, 0.5, -0.5, 0.0, 0.5, -0.5],
        cuts: 0,
        codes: [235, 240, 16, 16, 240, 16],
        packed: [240, 235, 16, 16],
        unpacked: [235, 240, 16, 16, 240, 16],
        decoded: [1.0, 0.5, -0.5, 0.0, 0.5, -0.5],
    },
    Example {
        name: "every byte in its place",
        layout: group(1, 2),
        values: [
            10.0 / 255.0,
            -108.0 / 255.0,
            -98.0 / 255.0,
            40.0 / 255.0,
            0.0,
            0.0,
        ],
        cuts: 0,
        codes: [10, 20, 30, 40, 50, 60],
        packed: [20, 10, 30, 40],
        unpacked: [10, 20, 30, 40, 20, 30],
        decoded: [
            10.0 / 255.0,
            -108.0 / 255.0,
            -98.0 / 255.0,
            40.0 / 255.0,
            -108.0 / 255.0,
            -98.0 / 255.0,
        ],
    },
    Example {
        name: "the colour of the first point, M10 in the second",
        layout: group(4, 1),
        values: [1.0, 0.5, -0.5, 0.5, -0.5, 0.25],
        cuts: 0,
        codes: [235, 240, 16, 126, 16, 184],
        packed: [240, 235, 16, 126],
        unpacked: [235, 240, 16, 126, 240, 16],
        decoded: [1.0, 0.5, -0.5, 110.0 / 219.0, 0.5, -0.5],
    },
    Example {
        name: "M6, M4, M5, and no colour at all in the second point",
        layout: group(3, 2),
        values: [-0.25, 0.5, -0.5, 1.0, f32::NAN, f32::INFINITY],
        cuts: 2,
        codes: [0, 255, 1, 255, 256, u16::MAX],
        packed: [255, 0, 1, 255],
        unpacked: [0, 255, 1, 255, 255, 1],
        decoded: [
            0.0,
            127.0 / 255.0,
            -127.0 / 255.0,
            1.0,
            127.0 / 255.0,
            -127.0 / 255.0,
        ],
    },
    // 256 * 0.3 = 76.8; 256 (0.1 + 1/2) = 153.6; 256 is cut.
    Example {
        name: "an early capture",
        layout: group(2, 3),
        values: [0.3, -0.5, 0.1, 1.0, f32::NEG_INFINITY, f32::NAN],
        cuts: 1,
        codes: [77, 0, 154, 255, 0x8000, 0x100],
        packed: [0, 77, 154, 255],
        unpacked: [77, 0, 154, 255, 0, 154],
        decoded: [
            77.0 / 256.0,
            -0.5,
            26.0 / 256.0,
            255.0 / 256.0,
            -0.5,
            26.0 / 256.0,
        ],
    },
    Example {
        name: "the ends of narrow range, four cuts and no more",
        layout: group(1, 1),
        values: [2.0, -1.0, f32::INFINITY, f32::NEG_INFINITY, 9.0, -9.0],
        cuts: 4,
        codes: [254, 1, 254, 1, 999, 1000],
        packed: [1, 254, 254, 1],
        unpacked: [254, 1, 254, 1, 1, 254],
        decoded: [
            238.0 / 219.0,
            -127.0 / 224.0,
            126.0 / 224.0,
            -15.0 / 219.0,
            -127.0 / 224.0,
            126.0 / 224.0,
        ],
    },
];

pub fn worked_out(library: &Library, tally: &mut Tally) -> Flow {
    for example in &EXAMPLES {
        for (program, library) in [("library", library), ("reference", &REFERENCE)] {
            for groups in [1, 2, 9] {
                agrees(library, tally, program, example, groups)?;
            }
        }
    }
    Flow::Continue(())
}

/// All four functions, on so many groups.
fn agrees(
    library: &Library,
    tally: &mut Tally,
    program: &str,
    example: &Example,
    groups: usize,
) -> Flow {
    let (name, layout) = (example.name, example.layout);
    let points = 2 * groups as i64;
    let packed = example.packed.repeat(groups);
    let elements = 6 * groups;

    let encoded = Outcome::with_cuts(packed.len(), |out| {
        (library.encode_line)(layout, &example.values.repeat(groups), out)
    });
    let told = (
        encoded.answer,
        encoded.cuts[CUTS],
        encoded.output.elements(),
    );
    let must_be = (points, example.cuts * groups as u32, &packed[..]);
    tally.compare(told == must_be, || {
        format!("{name}, {program}: encoded as {told:x?}, must be {must_be:x?}")
    })?;

    let told = Outcome::of(packed.len(), |out| {
        (library.pack_line)(layout, &example.codes.repeat(groups), out)
    });
    has(tally, name, program, "packed", &told, points, &packed)?;

    let told = Outcome::of(elements, |out| (library.unpack_line)(layout, &packed, out));
    let must_be = example.unpacked.repeat(groups);
    has(tally, name, program, "unpacked", &told, points, &must_be)?;

    let told = Outcome::of(elements, |out| (library.decode_line)(layout, &packed, out));
    let must_be = example.decoded.map(f32::to_bits).repeat(groups);
    has(tally, name, program, "decoded", &told, points, &must_be)
}

/// What is answered and stored, as it must be.
fn has<T: Element>(
    tally: &mut Tally,
    name: &str,
    program: &str,
    how: &str,
    told: &Outcome<T>,
    points: i64,
    must_be: &[T],
) -> Flow {
    let told = (told.answer, told.output.elements());
    let must_be = (points, must_be);
    tally.compare(told == must_be, || {
        format!("{name}, {program}: {how} as {told:x?}, must be {must_be:x?}")
    })
}

const GROUPS: Layout = group(2, 1);

/// In the place of an answer: 12 for a float, 14 for a code.
const ELEMENT: i64 = i64::MIN;

/// No such layouts: the first three are named in the request, the others are no group's.
const OUTSIDE: [(usize, u8); 9] = [
    (0, 1),
    (3, 10),
    (4, 3),
    (4, 8),
    (OFFSETS, 8),
    (OFFSETS + 1, 8),
    (OFFSETS + 2, 16),
    (SAMPLING, 0),
    (SAMPLING, 2),
];

/// Lines to make groups of: how many elements, the place of one that may not be, how many
/// bytes of output, and the answer.
const MAKING: [(usize, Option<usize>, usize, i64); 28] = [
    (0, None, 0, 0),
    (6, None, 4, 2),
    (12_288, None, 8192, 4096),
    // An odd count is refused before all but the layout.
    (3, None, 4, -16),
    (3, None, 2, -16),
    (3, None, 0, -16),
    (3, Some(0), 4, -16),
    (9, None, 6, -16),
    (9, Some(8), 8, -16),
    (12_285, None, 8192, -16),
    (12_291, None, 8194, -16),
    (12_291, Some(0), 8196, -16),
    // Too many, or no whole points.
    (12_294, None, 8196, -13),
    (12_294, Some(0), 8196, -13),
    (1, None, 4, -13),
    (4, None, 4, -13),
    (5, None, 4, -13),
    (7, Some(0), 4, -13),
    (12_289, None, 8192, -13),
    // An output that does not fit.
    (0, None, 1, -13),
    (6, None, 3, -13),
    (6, Some(3), 5, -13),
    (6, None, 8, -13),
    // Elements: all of the first point's, one of the second's.
    (6, Some(0), 4, ELEMENT),
    (6, Some(2), 4, ELEMENT),
    (6, Some(3), 4, ELEMENT),
    (6, Some(4), 4, 2),
    (6, Some(5), 4, 2),
];

/// Lines of groups to read: how many bytes, how many elements of output, and the answer.
const READING: [(usize, usize, i64); 13] = [
    (0, 0, 0),
    (4, 6, 2),
    (8192, 12_288, 4096),
    // An odd count of points is of no whole groups.
    (2, 3, -13),
    (6, 9, -13),
    (1, 0, -13),
    (3, 6, -13),
    (5, 6, -13),
    (8, 6, -13),
    (4, 3, -13),
    (4, 5, -13),
    (8194, 12_291, -13),
    (8196, 12_294, -13),
];

pub fn refused_by_hand(library: &Library, tally: &mut Tally) -> Flow {
    for (program, library) in [("library", library), ("reference", &REFERENCE)] {
        for (elements, bad, length, answer) in MAKING {
            made(
                library,
                tally,
                program,
                GROUPS,
                (elements, bad, length),
                answer,
            )?;
        }
        for (bytes, length, answer) in READING {
            read(library, tally, program, GROUPS, (bytes, length), answer)?;
        }
        for (place, number) in OUTSIDE {
            let mut layout = GROUPS;
            layout[place] = number;
            for (elements, bad, length, _) in MAKING {
                made(library, tally, program, layout, (elements, bad, length), -9)?;
            }
            for (bytes, length, _) in READING {
                read(library, tally, program, layout, (bytes, length), -9)?;
            }
        }
        no_single_points(library, tally, program)?;
    }
    Flow::Continue(())
}

/// The answer to encoding and packing; a refusal leaves all as it was.
fn made(
    library: &Library,
    tally: &mut Tally,
    program: &str,
    layout: Layout,
    (elements, bad, length): (usize, Option<usize>, usize),
    must_be: i64,
) -> Flow {
    let (mut values, mut codes) = (vec![0.25; elements], vec![100; elements]);
    if let Some(place) = bad {
        values[place] = f32::NAN;
        codes[place] = 256;
    }
    let with_element = |number| if must_be == ELEMENT { number } else { must_be };
    let encoded = Outcome::with_cuts(length, |out| (library.encode_line)(layout, &values, out));
    let packed = Outcome::of(length, |out| (library.pack_line)(layout, &codes, out));
    for (how, outcome, must_be) in [
        ("encode", encoded, with_element(-12)),
        ("pack", packed, with_element(-14)),
    ] {
        answers(tally, &outcome, length, must_be, || {
            format!("{how} {layout:?}, {elements} elements, bad {bad:?}, {program}")
        })?;
    }
    Flow::Continue(())
}

/// The answer to decoding and unpacking.
fn read(
    library: &Library,
    tally: &mut Tally,
    program: &str,
    layout: Layout,
    (bytes, length): (usize, usize),
    must_be: i64,
) -> Flow {
    let line = vec![77; bytes];
    let decoded = Outcome::of(length, |out| (library.decode_line)(layout, &line, out));
    answers(tally, &decoded, length, must_be, || {
        format!("decode {layout:?}, {bytes} bytes, {program}")
    })?;
    let unpacked = Outcome::of(length, |out| (library.unpack_line)(layout, &line, out));
    answers(tally, &unpacked, length, must_be, || {
        format!("unpack {layout:?}, {bytes} bytes, {program}")
    })
}

/// A single point is outside, whatever its length is and whatever it holds.
fn no_single_points(library: &Library, tally: &mut Tally, program: &str) -> Flow {
    for length in 0..=8 {
        let bytes = vec![77; length];
        let decoded = Outcome::of(3, |out| (library.decode_point)(GROUPS, &bytes, out));
        answers(tally, &decoded, 3, -9, || {
            format!("decode a point of a group, {length} bytes, {program}")
        })?;
        for value in [0.5, f32::NAN] {
            let encoded = Outcome::with_cuts(length, |out| {
                (library.encode_point)(GROUPS, [0.5, value, 0.5], out)
            });
            answers(tally, &encoded, length, -9, || {
                format!("encode a point of a group to {length} bytes, {program}")
            })?;
        }
    }
    Flow::Continue(())
}

/// The answer; if it is a refusal, memory is as it was.
fn answers<T: Element>(
    tally: &mut Tally,
    outcome: &Outcome<T>,
    length: usize,
    must_be: i64,
    what: impl Fn() -> String,
) -> Flow {
    let untouched = Outcome::of(length, |_| must_be);
    let same = match must_be {
        0.. => outcome.answer == must_be,
        _ => *outcome == untouched,
    };
    tally.compare(same, || {
        format!("{} to {length}: {}", what(), outcome.unlike(&untouched))
    })
}
