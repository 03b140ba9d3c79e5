//! Points worked out by hand from the paper and its marked examples. The library
//! and the reference are both compared with them.

use crate::guarded::Outcome;
use crate::library::{Layout, Library, CUTS};
use crate::tally::{Flow, Tally};
use crate::wrong::REFERENCE;

struct Example {
    name: &'static str,
    layout: Layout,
    values: [f32; 3],
    codes: [u16; 3],
    /// The floats of the codes.
    decoded: [f32; 3],
    packed: &'static [u8],
    /// Bits of no field.
    unused: &'static [u8],
    /// How many of the values are cut.
    cuts: u32,
}

/// The float just under 1/8, namely 1/8 - 2^-27.
const UNDER_AN_EIGHTH: f32 = 0.125 - 1.0 / 134_217_728.0;

const EXAMPLES: [Example; 11] = [
    Example {
        name: "M1, M3, M2, a byte each",
        layout: [2, 1, 1, 8, 3, 0, 8, 16, 0],
        values: [1.0, 0.5, -0.5],
        codes: [235, 240, 16],
        decoded: [1.0, 0.5, -0.5],
        packed: &[235, 240, 16],
        unused: &[0, 0, 0],
        cuts: 0,
    },
    Example {
        name: "M6, M4, M5, a byte each, the last channel first",
        layout: [2, 3, 2, 8, 4, 24, 8, 0, 0],
        values: [-0.25, 0.5, -0.5],
        codes: [0, 255, 1],
        decoded: [0.0, 127.0 / 255.0, -127.0 / 255.0],
        packed: &[1, 255, 0, 0],
        unused: &[0, 0, 255, 0],
        cuts: 2,
    },
    // 173 * 2^20 + 174 * 2^10 + 940 = 0x0ad2bbac.
    Example {
        name: "M8, M7, and the narrow top, the last channel lowest",
        layout: [1, 1, 1, 10, 4, 20, 10, 0, 0],
        values: [UNDER_AN_EIGHTH, 0.125, 1.0],
        codes: [173, 174, 940],
        decoded: [109.0 / 876.0, 110.0 / 876.0, 1.0],
        packed: &[0xac, 0xbb, 0xd2, 0x0a],
        unused: &[0, 0, 0, 0xc0],
        cuts: 0,
    },
    // 4095 * 2^52 + 2048 * 2^12 + 2048 = 0xfff0000000800800.
    Example {
        name: "M9, and a field at the very top",
        layout: [2, 4, 2, 12, 8, 52, 0, 12, 0],
        values: [1.0, 0.0, 0.0],
        codes: [4095, 2048, 2048],
        decoded: [1.0, 0.0, 0.0],
        packed: &[0, 8, 0x80, 0, 0, 0, 0xf0, 0xff],
        unused: &[0, 0, 0, 0xff, 0xff, 0xff, 0x0f, 0],
        cuts: 0,
    },
    // 256 * 0.3 = 76.8; 256 (0.1 + 1/2) = 153.6.
    Example {
        name: "an early capture, a byte each",
        layout: [2, 2, 3, 8, 3, 0, 8, 16, 0],
        values: [0.3, -0.5, 0.1],
        codes: [77, 0, 154],
        decoded: [77.0 / 256.0, -0.5, 26.0 / 256.0],
        packed: &[77, 0, 154],
        unused: &[0, 0, 0],
        cuts: 0,
    },
    // 4092 is 0xffc: 0xffc * 2^24 + 0xffc * 2^12 + 0x001.
    Example {
        name: "the older full range's top, the last channel highest",
        layout: [2, 4, 3, 12, 5, 0, 12, 24, 0],
        values: [1.0 / 4096.0, 0.5, f32::INFINITY],
        codes: [1, 4092, 4092],
        decoded: [1.0 / 4096.0, 2044.0 / 4096.0, 2044.0 / 4096.0],
        packed: &[0x01, 0xc0, 0xff, 0xfc, 0x0f],
        unused: &[0, 0, 0, 0, 0xf0],
        cuts: 2,
    },
    // 16 + 219 * 2 = 454, 128 - 224 = -96.
    Example {
        name: "the ends of narrow range, a byte each",
        layout: [2, 1, 1, 8, 3, 0, 8, 16, 0],
        values: [2.0, -1.0, f32::INFINITY],
        codes: [254, 1, 254],
        decoded: [238.0 / 219.0, -127.0 / 224.0, 126.0 / 224.0],
        packed: &[254, 1, 254],
        unused: &[0, 0, 0],
        cuts: 3,
    },
    // 4 (16 + 219 * 1.25) = 1159, 4 (16 - 219 / 4) = -155: 4 * 2^20 + 4 * 2^10 + 1019.
    Example {
        name: "the ends of narrow range at 10 bits, the last channel lowest",
        layout: [1, 4, 1, 10, 4, 20, 10, 0, 0],
        values: [f32::NEG_INFINITY, -0.25, 1.25],
        codes: [4, 4, 1019],
        decoded: [-60.0 / 876.0, -60.0 / 876.0, 955.0 / 876.0],
        packed: &[0xfb, 0x13, 0x40, 0x00],
        unused: &[0, 0, 0, 0xc0],
        cuts: 3,
    },
    // 16 (128 + 224 * 0.75) = 4736: 16 * 2^24 + 0xfef * 2^12 + 16, and 4079 is 0xfef.
    Example {
        name: "the ends of narrow range at 12 bits",
        layout: [2, 2, 1, 12, 5, 0, 12, 24, 0],
        values: [-0.25, 0.75, -0.75],
        codes: [16, 4079, 16],
        decoded: [-240.0 / 3504.0, 2031.0 / 3584.0, -2032.0 / 3584.0],
        packed: &[0x10, 0xf0, 0xfe, 0x10, 0x00],
        unused: &[0, 0, 0, 0, 0xf0],
        cuts: 3,
    },
    // Each end is its own number, and is not cut.
    Example {
        name: "the ends of narrow range by their own values",
        layout: [2, 1, 1, 8, 3, 0, 8, 16, 0],
        values: [238.0 / 219.0, -127.0 / 224.0, 126.0 / 224.0],
        codes: [254, 1, 254],
        decoded: [238.0 / 219.0, -127.0 / 224.0, 126.0 / 224.0],
        packed: &[254, 1, 254],
        unused: &[0, 0, 0],
        cuts: 0,
    },
    // floor(1/2 - 1/2) is 0 and not cut; floor(1/2 - 3/4) is -1 and floor(1/2 + 255.5) is
    // 256, both cut.
    Example {
        name: "half a code beyond the older full range, the last channel first",
        layout: [1, 3, 3, 8, 3, 16, 8, 0, 0],
        values: [-0.5 / 256.0, -0.75 / 256.0, 255.5 / 256.0],
        codes: [0, 0, 255],
        decoded: [0.0, 0.0, 255.0 / 256.0],
        packed: &[255, 0, 0],
        unused: &[0, 0, 0],
        cuts: 2,
    },
];

pub fn worked_out(library: &Library, tally: &mut Tally) -> Flow {
    for example in &EXAMPLES {
        for (program, library) in [("library", library), ("reference", &REFERENCE)] {
            agrees(library, tally, program, example)?;
        }
    }
    Flow::Continue(())
}

/// All six functions, on a point and on the same point twice.
fn agrees(library: &Library, tally: &mut Tally, program: &str, example: &Example) -> Flow {
    let layout = example.layout;
    let name = example.name;
    let point = Outcome::with_cuts(example.packed.len(), |out| {
        (library.encode_point)(layout, example.values, out)
    });
    let told = (point.answer, point.cuts[CUTS], point.output.elements());
    let must_be = (1, example.cuts, example.packed);
    tally.compare(told == must_be, || {
        format!("{name}, {program}: the point is encoded as {told:x?}, must be {must_be:x?}")
    })?;
    let twice = example.packed.repeat(2);
    let line = Outcome::with_cuts(twice.len(), |out| {
        (library.encode_line)(layout, &example.values.repeat(2), out)
    });
    let told = (line.answer, line.cuts[CUTS], line.output.elements());
    let must_be = (2, 2 * example.cuts, &twice[..]);
    tally.compare(told == must_be, || {
        format!("{name}, {program}: the line is encoded as {told:x?}, must be {must_be:x?}")
    })?;
    let mut packed = Outcome::of(twice.len(), |out| {
        (library.pack_line)(layout, &example.codes.repeat(2), out)
    });
    tally.compare(
        packed.answer == 2 && packed.output.output() == twice,
        || format!("{name}, {program}: the line is packed otherwise"),
    )?;
    let with_unused: Vec<u8> = twice
        .iter()
        .zip(example.unused.iter().cycle())
        .map(|(byte, unused)| byte | unused)
        .collect();
    for line in [twice, with_unused] {
        let mut codes = Outcome::of(6, |out| (library.unpack_line)(layout, &line, out));
        tally.compare(
            codes.answer == 2 && codes.output.output() == example.codes.repeat(2),
            || format!("{name}, {program}: {line:x?} is unpacked otherwise"),
        )?;
        let decoded = example.decoded.map(f32::to_bits);
        let mut values = Outcome::of(6, |out| (library.decode_line)(layout, &line, out));
        tally.compare(
            values.answer == 2 && values.output.output() == decoded.repeat(2),
            || format!("{name}, {program}: {line:x?} is decoded otherwise"),
        )?;
        let first = &line[..example.packed.len()];
        let mut point = Outcome::of(3, |out| (library.decode_point)(layout, first, out));
        tally.compare(
            point.answer == 1 && point.output.output() == decoded,
            || format!("{name}, {program}: the point {first:x?} is decoded otherwise"),
        )?;
    }
    Flow::Continue(())
}
