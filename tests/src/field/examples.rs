//! Fields worked out by hand. The library and the reference are both compared with
//! them.

use crate::guarded::{Guarded, Outcome};
use crate::layouts::group;
use crate::library::{Layout, Library};
use crate::tally::{Flow, Tally};
use crate::wrong::REFERENCE;

struct Example {
    name: &'static str,
    layout: Layout,
    channel: u8,
    first: u8,
    /// Each has the code, whatever the bits beside the field are.
    bytes: [&'static [u8]; 2],
    code: i64,
}

const A: Layout = [2, 2, 1, 10, 4, 0, 10, 20, 0];

const EXAMPLES: [Example; 13] = [
    // The point ae 00 0f 04 has the codes 174, 960 and 64.
    Example {
        name: "10 bits from bit 0",
        layout: A,
        channel: 0,
        first: 0,
        bytes: [&[0xae, 0x00], &[0xae, 0xfc]],
        code: 174,
    },
    // 0f00 / 2^2 = 3c0.
    Example {
        name: "10 bits from bit 10",
        layout: A,
        channel: 1,
        first: 1,
        bytes: [&[0x00, 0x0f], &[0x03, 0xff]],
        code: 960,
    },
    // 040f / 2^4 = 40, and a rest.
    Example {
        name: "10 bits from bit 20",
        layout: A,
        channel: 2,
        first: 2,
        bytes: [&[0x0f, 0x04], &[0x00, 0xc4]],
        code: 64,
    },
    Example {
        name: "a byte, the last of three",
        layout: [2, 1, 1, 8, 3, 0, 8, 16, 0],
        channel: 2,
        first: 2,
        bytes: [&[16], &[16]],
        code: 16,
    },
    Example {
        name: "a byte, the last of eight",
        layout: [1, 1, 3, 8, 8, 56, 0, 8, 0],
        channel: 0,
        first: 7,
        bytes: [&[0xa5], &[0xa5]],
        code: 165,
    },
    // 5a * 2^5 = 0b40.
    Example {
        name: "8 bits from bit 13, in two bytes",
        layout: [1, 1, 2, 8, 4, 13, 0, 24, 0],
        channel: 0,
        first: 1,
        bytes: [&[0x40, 0x0b], &[0x5f, 0xeb]],
        code: 0x5a,
    },
    // 155 * 2^6 = 5540.
    Example {
        name: "10 bits from bit 6, to the end of a byte",
        layout: [2, 4, 1, 10, 5, 16, 6, 30, 0],
        channel: 1,
        first: 0,
        bytes: [&[0x40, 0x55], &[0x7f, 0x55]],
        code: 0x155,
    },
    // 2a5 * 2^7 = 15280.
    Example {
        name: "10 bits from bit 7, in three bytes",
        layout: [1, 3, 3, 10, 5, 30, 7, 17, 0],
        channel: 1,
        first: 0,
        bytes: [&[0x80, 0x52, 0x01], &[0xff, 0x52, 0xff]],
        code: 0x2a5,
    },
    // 123 * 2^4 = 1230.
    Example {
        name: "12 bits from bit 44, to the end of a byte",
        layout: [1, 2, 3, 12, 7, 44, 0, 20, 0],
        channel: 0,
        first: 5,
        bytes: [&[0x30, 0x12], &[0x3f, 0x12]],
        code: 0x123,
    },
    // abc * 2^6 = 2af00.
    Example {
        name: "12 bits from bit 6, in three bytes",
        layout: [1, 4, 2, 12, 8, 18, 30, 6, 0],
        channel: 2,
        first: 0,
        bytes: [&[0x00, 0xaf, 0x02], &[0x3f, 0xaf, 0xfe]],
        code: 0xabc,
    },
    // 801 * 2^5 = 10020.
    Example {
        name: "12 bits from bit 21, in three bytes",
        layout: [2, 1, 2, 12, 6, 33, 0, 21, 0],
        channel: 2,
        first: 2,
        bytes: [&[0x20, 0x00, 0x01], &[0x3f, 0x00, 0xff]],
        code: 0x801,
    },
    Example {
        name: "12 bits from bit 24, in two bytes",
        layout: [1, 4, 2, 12, 5, 24, 12, 0, 0],
        channel: 0,
        first: 3,
        bytes: [&[0xff, 0x0f], &[0xff, 0xff]],
        code: 4095,
    },
    Example {
        name: "12 bits at the very top",
        layout: [2, 4, 2, 12, 8, 52, 0, 12, 0],
        channel: 0,
        first: 6,
        bytes: [&[0x00, 0x80], &[0x0f, 0x80]],
        code: 2048,
    },
];

pub fn worked_out(library: &Library, tally: &mut Tally) -> Flow {
    for example in &EXAMPLES {
        for (program, library) in [("library", library), ("reference", &REFERENCE)] {
            agrees(library, tally, program, example)?;
        }
    }
    Flow::Continue(())
}

fn agrees(library: &Library, tally: &mut Tally, program: &str, example: &Example) -> Flow {
    let Example {
        name,
        layout,
        channel,
        first,
        bytes,
        code,
    } = *example;
    let told = Outcome::of(1, |out| (library.field_bytes)(layout, channel, out));
    let must_be = Outcome::of(1, |out| {
        *out = Guarded::holding(&[first]);
        bytes[0].len() as i64
    });
    tally.compare(told == must_be, || {
        format!("{name}, bytes, {program}: {}", told.unlike(&must_be))
    })?;
    for bytes in bytes {
        let answer = (library.field_code)(layout, channel, bytes);
        tally.compare(answer == code, || {
            format!("{name}, {bytes:x?}, {program}: answer {answer}, must be {code}")
        })?;
    }
    Flow::Continue(())
}

/// Refusals, and which of two is given.
pub fn refused_by_hand(library: &Library, tally: &mut Tally) -> Flow {
    let overlapping = [2, 2, 1, 10, 4, 0, 9, 20, 0];
    let [shared, unknown] = [1, 2].map(|sampling| [2, 2, 1, 8, 4, 0, 8, 16, sampling]);
    let point: &[u8] = &[0xae, 0x00, 0x0f, 0x04];
    let examples = [
        ("no bytes", A, 1, &[][..], -13),
        ("a byte too few", A, 1, &point[1..2], -13),
        ("a byte too many", A, 1, &point[1..], -13),
        ("the whole point", A, 1, point, -13),
        ("channel 3", A, 3, &point[..2], -9),
        ("channel 3, no bytes", A, 3, &[], -9),
        ("channel 255, the whole point", A, 255, point, -9),
        ("fields that overlap", overlapping, 2, &point[2..], -9),
        ("fields that overlap, no bytes", overlapping, 2, &[], -9),
        ("a group's first byte", group(2, 1), 0, &point[..1], -9),
        ("a group's second byte", group(2, 1), 1, &point[1..2], -9),
        ("a whole group", group(1, 2), 2, point, -9),
        ("a group, no bytes", group(4, 3), 0, &[], -9),
        ("a group, channel 3", group(4, 3), 3, &point[..1], -9),
        ("shared points", shared, 0, &point[..1], -9),
        ("sampling 2", unknown, 0, &point[..1], -9),
    ];
    for (program, library) in [("library", library), ("reference", &REFERENCE)] {
        for (name, layout, channel, bytes, must_be) in examples {
            let code = (library.field_code)(layout, channel, bytes);
            tally.compare(code == must_be, || {
                format!("{name}, {program}: answer {code}, must be {must_be}")
            })?;
            if must_be == -9 {
                let told = Outcome::of(1, |out| (library.field_bytes)(layout, channel, out));
                let must_be = Outcome::of(1, |_| must_be);
                tally.compare(told == must_be, || {
                    format!("{name}, bytes, {program}: {}", told.unlike(&must_be))
                })?;
            }
        }
    }
    Flow::Continue(())
}
