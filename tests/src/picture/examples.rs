//! Pictures worked out by hand. The library and the reference are both compared with them.

use reference::card::{Facts, OPEN};

use crate::card::{cards, Card};
use crate::library::picture::Imported;
use crate::library::{Layout, Library};
use crate::tally::{Flow, Tally};
use crate::wrong::REFERENCE;

use super::{Export, Import};

pub mod refusals;

/// A layout, the sides, the packed bytes and the file.
type Exported = (&'static str, Layout, [u16; 2], &'static [u8], &'static [u8]);

const EXPORTED: &[Exported] = &[
    // Full-range R'G'B' as it is.
    (
        "full R'G'B' of 8 bits",
        [1, 1, 2, 8, 3, 0, 8, 16, 0],
        [2, 1],
        &[1, 2, 3, 254, 255, 0],
        b"P6\n2 1\n255\n\x01\x02\x03\xfe\xff\x00",
    ),
    (
        "blue first, and a byte that is not looked at",
        [1, 2, 2, 8, 4, 16, 8, 0, 0],
        [1, 2],
        &[3, 2, 1, 0xaa, 6, 5, 4, 0x55],
        b"P6\n1 2\n255\n\x01\x02\x03\x04\x05\x06",
    ),
    (
        // 1023 + 512 * 2^10 + 2^20 is 1803ff hex; the two highest bits are unused.
        "full R'G'B' of 10 bits",
        [1, 1, 2, 10, 4, 0, 10, 20, 0],
        [1, 1],
        &[0xff, 0x03, 0x18, 0xc0],
        b"P6\n1 1\n1023\n\x03\xff\x02\x00\x00\x01",
    ),
    (
        "full R'G'B' of 12 bits, blue first",
        [1, 4, 2, 12, 5, 24, 12, 0, 0],
        [1, 1],
        &[0xaa, 0x0a, 0x00, 0xff, 0x0f],
        b"P6\n1 1\n4095\n\x0f\xff\x00\x00\x0a\xaa",
    ),
    // Narrow R'G'B': m (c - 16s)/(219s), rounded at a half.
    (
        // 125 is 126.9, 126 is 128.1, 17 is 1.2, 20 is 4.7, 234 is 253.8, 236 is 256.2.
        "narrow R'G'B' of 8 bits",
        [1, 1, 1, 8, 3, 0, 8, 16, 0],
        [2, 2],
        &[16, 125, 235, 0, 126, 255, 17, 20, 234, 236, 15, 1],
        b"P6\n2 2\n255\n\x00\x7f\xff\x00\x80\xff\x01\x05\xfe\xff\x00\x00",
    ),
    (
        // 210 is 170.5, 209 is 169.3, 502 is 511.5, 356 is 341, 63 is under 0.
        "narrow R'G'B' of 10 bits",
        [1, 4, 1, 10, 6, 0, 16, 32, 0],
        [2, 1],
        &[210, 0, 209, 0, 0xf6, 1, 0x64, 1, 63, 0, 172, 3],
        b"P6\n2 1\n1023\n\x00\xab\x00\xa9\x02\x00\x01\x55\x00\x00\x03\xff",
    ),
    (
        // 840 is 682.5 and 2008 is 2047.5; 4079 is above 4095.
        "narrow R'G'B' of 12 bits",
        [1, 2, 1, 12, 6, 0, 16, 32, 0],
        [1, 1],
        &[0x48, 0x03, 0xd8, 0x07, 0xef, 0x0f],
        b"P6\n1 1\n4095\n\x02\xab\x08\x00\x0f\xff",
    ),
    // Y'CbCr by the weights of the primaries.
    (
        // White, red, green and blue of docs/FORMATS.md and the examples.
        "narrow Y'CbCr of 10 bits",
        [2, 2, 1, 10, 4, 0, 10, 20, 0],
        [4, 1],
        &[
            0xac, 0x03, 0x08, 0x20, 0x46, 0xa5, 0x05, 0x3c, //
            0x42, 0x5e, 0x93, 0x08, 0xa4, 0x00, 0x7f, 0x1b,
        ],
        b"P6\n4 1\n1023\n\x03\xff\x03\xff\x03\xff\x03\xff\0\0\0\0\
          \0\0\x03\xff\0\0\0\0\0\0\x03\xff",
    ),
    (
        // R' is 1 + 1.5748/2, cut; G' is 1 - 0.33480248/1.4304, 195.3; B' is 1.
        "narrow Y'CbCr of 8 bits",
        [2, 1, 1, 8, 3, 0, 8, 16, 0],
        [1, 1],
        &[235, 128, 240],
        b"P6\n1 1\n255\n\xff\xc3\xff",
    ),
    (
        // Black, 2047.5, and Cb 0.5: B' is 0.9407, 3852.2, and G' under 0.
        "narrow Y'CbCr of 12 bits",
        [2, 4, 1, 12, 6, 0, 16, 32, 0],
        [3, 1],
        &[
            0x00, 0x01, 0x00, 0x08, 0x00, 0x08, //
            0xd8, 0x07, 0x00, 0x08, 0x00, 0x08, //
            0x00, 0x01, 0x00, 0x0f, 0x00, 0x08,
        ],
        b"P6\n3 1\n4095\n\0\0\0\0\0\0\x08\0\x08\0\x08\0\0\0\0\0\x0f\x0c",
    ),
    (
        // The paper's M12.
        "full Y'CbCr of 8 bits",
        [2, 1, 2, 8, 3, 0, 8, 16, 0],
        [2, 1],
        &[54, 99, 255, 255, 128, 128],
        b"P6\n2 1\n255\n\xfe\0\0\xff\xff\xff",
    ),
    (
        // R' is 350 - 1.402 * 250, -0.5; G' is 350 + 250 * 0.419198/0.587, 528.5.
        "full Y'CbCr of 10 bits",
        [2, 3, 2, 10, 6, 0, 16, 32, 0],
        [1, 1],
        &[0x5e, 1, 0, 2, 6, 1],
        b"P6\n1 1\n1023\n\0\0\x02\x11\x01\x5e",
    ),
    (
        "full Y'CbCr of 12 bits, grey",
        [2, 1, 2, 12, 5, 0, 12, 24, 0],
        [1, 1],
        &[0xbc, 0x0a, 0x80, 0x00, 0x08],
        b"P6\n1 1\n4095\n\x0a\xbc\x0a\xbc\x0a\xbc",
    ),
    // Groups as points.
    (
        // White and black, red and dark red of the examples.
        "narrow groups",
        [2, 2, 1, 8, 4, 0, 0, 0, 1],
        [2, 2],
        &[128, 235, 128, 16, 90, 81, 240, 41],
        b"P6\n2 2\n255\n\xff\xff\xff\x00\x00\x00\xfe\x00\x00\xd0\x00\x00",
    ),
    (
        "full groups",
        [2, 1, 2, 8, 4, 0, 0, 0, 1],
        [4, 1],
        &[128, 255, 128, 1, 99, 54, 255, 54],
        b"P6\n4 1\n255\n\xff\xff\xff\x01\x01\x01\xfe\0\0\xfe\0\0",
    ),
];

/// A file, the item and the primaries, the card and the packed bytes.
type FromFile = (&'static str, &'static [u8], u64, u8, Card, &'static [u8]);

const IMPORTED: &[FromFile] = &[
    (
        "8 bits",
        b"P6\n2 1\n255\n\x01\x02\x03\xfe\xff\x00",
        7,
        1,
        [
            1, 2, // least edition, written at
            1, 1, 2, 8, 3, 0, // model, primaries, range, depth, bytes a point
            0, 8, 16, 0, // offsets
            2, 0, 1, 0, // width, height
            7, 0, 0, 0, 0, 0, 0, 0, // item
            0, 0, 0, 0, 0, 0, 0, 0, // access
        ],
        &[1, 2, 3, 254, 255, 0],
    ),
    (
        "10 bits",
        b"P6\n1 1\n1023\n\x03\xff\x02\x00\x00\x01",
        0x0102_0304_0506_0708,
        4,
        [
            1, 2, //
            1, 4, 2, 10, 4, 0, //
            0, 10, 20, 0, //
            1, 0, 1, 0, //
            8, 7, 6, 5, 4, 3, 2, 1, //
            0, 0, 0, 0, 0, 0, 0, 0,
        ],
        &[0xff, 0x03, 0x18, 0x00],
    ),
    (
        // abc + 123 * 2^12 + fff * 2^24, and 800 * 2^12 + 2^24, hex.
        "12 bits",
        b"P6\n1 2\n4095\n\x0a\xbc\x01\x23\x0f\xff\0\0\x08\0\0\x01",
        u64::MAX,
        3,
        [
            2, 2, //
            1, 3, 2, 12, 5, 0, //
            0, 12, 24, 0, //
            1, 0, 2, 0, //
            255, 255, 255, 255, 255, 255, 255, 255, //
            0, 0, 0, 0, 0, 0, 0, 0,
        ],
        &[
            0xbc, 0x3a, 0x12, 0xff, 0x0f, //
            0x00, 0x00, 0x80, 0x01, 0x00,
        ],
    ),
];

pub fn worked_out(library: &Library, tally: &mut Tally) -> Flow {
    for (program, library) in [("library", library), ("reference", &REFERENCE)] {
        for &example in EXPORTED {
            exported_so(library, tally, program, example)?;
        }
        for &example in IMPORTED {
            imported_so(library, tally, program, example)?;
        }
    }
    Flow::Continue(())
}

/// At every edition from 2 on that reads the card.
fn exported_so(
    library: &Library,
    tally: &mut Tally,
    program: &str,
    (name, layout, [width, height], packed, file): Exported,
) -> Flow {
    let card = cards::card(Facts {
        layout,
        width,
        height,
        item: 7,
        access: OPEN,
    });
    let points = i64::from(width) * i64::from(height);
    for edition in cards::least(layout).max(2)..=4 {
        let export = Export::of(library.ppm_export, &card, edition, packed, file.len());
        let (answer, made) = (export.outcome.answer, export.outcome.output.elements());
        tally.compare(answer == points && made == file, || {
            format!("{name}, {program}, exported at {edition}: {answer}, {made:x?}")
        })?;
        let told = (library.ppm_export_len)(&mut export.card.clone(), edition);
        tally.compare(told == file.len() as i64, || {
            format!("{name}, {program}: {told} bytes told of a file")
        })?;
    }
    Flow::Continue(())
}

fn imported_so(
    library: &Library,
    tally: &mut Tally,
    program: &str,
    (name, ppm, item, primaries, card, packed): FromFile,
) -> Flow {
    let room = Imported::new(packed.len());
    let import = Import::of(library.ppm_import, ppm, item, primaries, room);
    let points = i64::from(card[12]) * i64::from(card[14]);
    let made = [&import.made.card, &import.made.packed].map(|made| made.elements());
    tally.compare(
        import.answer == points && made == [&card[..], packed],
        || format!("{name}, {program}, imported: {}, {made:x?}", import.answer),
    )?;
    let told = (library.ppm_import_len)(&mut import.ppm.clone());
    tally.compare(told == packed.len() as i64, || {
        format!("{name}, {program}: {told} bytes told of points")
    })
}
