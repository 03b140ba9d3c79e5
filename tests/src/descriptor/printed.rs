//! The descriptors that document 002 prints, in its tables 27 to 43.
//!
//! Their bytes 12 to 15 (model, primaries, transfer, flags) are missing in the
//! document, so several are tried. Table 26 prints a total size alone, from which
//! no bytes can be formed.
//!
//! All are outside our profile. The numbers are copied from the document, so the
//! library and the reference are both compared with the refusals stated here.

use crate::guarded::Outcome;
use crate::library::{Layout, Library};
use crate::tally::{Flow, Tally};

use super::{compare_read, expected_read};

struct Printed {
    name: &'static str,
    total_size: u32,
    block_size: u16,
    dimensions: [u8; 4],
    planes: [u8; 8],
    /// Bit offset, bit length, channel type, four positions, lower, upper.
    samples: &'static [[u32; 9]],
    /// The refusal if the missing bytes are ours.
    refusal: i64,
}

/// Bytes 12 to 15 of our profile: RGB, BT.709, ITU, no flags.
const OURS: [u8; 4] = [1, 1, 3, 0];

/// Others: none, sRGB with premultiplied alpha, and a byte of ours each changed.
const OTHERS: [[u8; 4]; 6] = [
    [0, 0, 0, 0],
    [1, 1, 2, 1],
    [3, 1, 3, 0],
    [1, 5, 3, 0],
    [1, 1, 1, 0],
    [1, 1, 3, 1],
];

/// Refusal 1 is for a size other than 76. Tables 28, 41 and 42 have that size:
/// 28 and 42 have 2 bytes a point, which is 4, and 41 has samples of 16 bits,
/// which is 5.
const PRINTED: [Printed; 15] = [
    Printed {
        name: "table 27, 8-bit sRGB and alpha",
        total_size: 92,
        block_size: 88,
        dimensions: [0, 0, 0, 0],
        planes: [4, 0, 0, 0, 0, 0, 0, 0],
        samples: &[
            [0, 7, 0, 0, 0, 0, 0, 0, 255],
            [8, 7, 1, 0, 0, 0, 0, 0, 255],
            [16, 7, 2, 0, 0, 0, 0, 0, 255],
            [24, 7, 31, 0, 0, 0, 0, 0, 255],
        ],
        refusal: 1,
    },
    Printed {
        name: "table 28, 565 RGB, little-endian",
        total_size: 76,
        block_size: 72,
        dimensions: [0, 0, 0, 0],
        planes: [2, 0, 0, 0, 0, 0, 0, 0],
        samples: &[
            [0, 4, 2, 0, 0, 0, 0, 0, 31],
            [5, 5, 1, 0, 0, 0, 0, 0, 63],
            [11, 4, 0, 0, 0, 0, 0, 0, 31],
        ],
        refusal: 4,
    },
    Printed {
        name: "table 29, 8-bit monochrome",
        total_size: 44,
        block_size: 40,
        dimensions: [0, 0, 0, 0],
        planes: [4, 0, 0, 0, 0, 0, 0, 0],
        samples: &[[0, 7, 0, 0, 0, 0, 0, 0, 255]],
        refusal: 1,
    },
    Printed {
        name: "tables 30 and 31, 1-bit monochrome",
        total_size: 156,
        block_size: 152,
        dimensions: [7, 0, 0, 0],
        planes: [1, 0, 0, 0, 0, 0, 0, 0],
        samples: &[
            [0, 0, 0, 0, 0, 0, 0, 0, 1],
            [1, 0, 0, 2, 0, 0, 0, 0, 1],
            [2, 0, 0, 4, 0, 0, 0, 0, 1],
            [3, 0, 0, 6, 0, 0, 0, 0, 1],
            [4, 0, 0, 8, 0, 0, 0, 0, 1],
            [5, 0, 0, 10, 0, 0, 0, 0, 1],
            [6, 0, 0, 12, 0, 0, 0, 0, 1],
            [7, 0, 0, 14, 0, 0, 0, 0, 1],
        ],
        refusal: 1,
    },
    Printed {
        name: "table 32, Bayer pattern",
        total_size: 92,
        block_size: 88,
        dimensions: [1, 1, 0, 0],
        planes: [2, 2, 0, 0, 0, 0, 0, 0],
        samples: &[
            [0, 7, 0, 0, 0, 0, 0, 0, 255],
            [8, 7, 1, 2, 0, 0, 0, 0, 255],
            [16, 7, 1, 0, 2, 0, 0, 0, 255],
            [24, 7, 2, 2, 2, 0, 0, 0, 255],
        ],
        refusal: 1,
    },
    Printed {
        name: "table 33, palette of 5 entries",
        total_size: 108,
        block_size: 104,
        dimensions: [0, 0, 0, 0],
        planes: [0, 4, 0, 0, 0, 0, 0, 0],
        samples: &[
            [0, 2, 0, 0, 0, 0, 0, 0, 4],
            [0, 7, 0, 0, 0, 0, 0, 0, 255],
            [8, 7, 1, 0, 0, 0, 0, 0, 255],
            [16, 7, 2, 0, 0, 0, 0, 0, 255],
            [24, 7, 31, 0, 0, 0, 0, 0, 255],
        ],
        refusal: 1,
    },
    Printed {
        name: "table 34, 4:2:0 BT.709",
        total_size: 124,
        block_size: 120,
        dimensions: [1, 1, 0, 0],
        planes: [2, 2, 1, 1, 0, 0, 0, 0],
        samples: &[
            [0, 7, 0, 0, 0, 0, 0, 16, 235],
            [8, 7, 0, 2, 0, 0, 0, 16, 235],
            [16, 7, 0, 0, 2, 0, 0, 16, 235],
            [24, 7, 0, 2, 2, 0, 0, 16, 235],
            [32, 7, 1, 1, 1, 0, 0, 16, 240],
            [36, 7, 2, 1, 1, 0, 0, 16, 240],
        ],
        refusal: 1,
    },
    Printed {
        name: "table 35, 565 RGB, big-endian",
        total_size: 92,
        block_size: 88,
        dimensions: [0, 0, 0, 0],
        planes: [2, 0, 0, 0, 0, 0, 0, 0],
        samples: &[
            [13, 2, 1, 0, 0, 0, 0, 0, 63],
            [0, 2, 1, 0, 0, 0, 0, 0, 0],
            [3, 4, 2, 0, 0, 0, 0, 0, 31],
            [8, 4, 1, 0, 0, 0, 0, 0, 31],
        ],
        refusal: 1,
    },
    Printed {
        name: "table 36, R9G9B9E5 shared exponent",
        total_size: 124,
        block_size: 120,
        dimensions: [0, 0, 0, 0],
        planes: [4, 0, 0, 0, 0, 0, 0, 0],
        samples: &[
            [0, 8, 0, 0, 0, 0, 0, 0, 256],
            [27, 4, 32, 0, 0, 0, 0, 0, 15],
            [9, 8, 1, 0, 0, 0, 0, 0, 256],
            [27, 4, 33, 0, 0, 0, 0, 0, 15],
            [18, 8, 2, 0, 0, 0, 0, 0, 256],
            [27, 4, 34, 0, 0, 0, 0, 0, 15],
        ],
        refusal: 1,
    },
    Printed {
        name: "table 37, Acorn 256 colors",
        total_size: 108,
        block_size: 120,
        dimensions: [0, 0, 0, 0],
        planes: [1, 0, 0, 0, 0, 0, 0, 0],
        samples: &[
            [0, 3, 0, 0, 0, 0, 0, 0, 15],
            [0, 1, 1, 0, 0, 0, 0, 0, 0],
            [4, 1, 1, 0, 0, 0, 0, 0, 15],
            [0, 1, 2, 0, 0, 0, 0, 0, 0],
            [6, 1, 2, 0, 0, 0, 0, 0, 15],
        ],
        refusal: 1,
    },
    Printed {
        name: "tables 38 and 39, V210",
        total_size: 220,
        block_size: 216,
        dimensions: [5, 0, 0, 0],
        planes: [16, 0, 0, 0, 0, 0, 0, 0],
        samples: &[
            [0, 9, 1, 1, 0, 0, 0, 0, 1023],
            [10, 9, 0, 0, 0, 0, 0, 0, 1023],
            [20, 9, 2, 1, 0, 0, 0, 0, 1023],
            [32, 9, 0, 2, 0, 0, 0, 0, 1023],
            [42, 9, 1, 5, 0, 0, 0, 0, 1023],
            [52, 9, 0, 4, 0, 0, 0, 0, 1023],
            [64, 9, 2, 5, 0, 0, 0, 0, 1023],
            [74, 9, 0, 6, 0, 0, 0, 0, 1023],
            [84, 9, 1, 9, 0, 0, 0, 0, 1023],
            [96, 9, 0, 8, 0, 0, 0, 0, 1023],
            [106, 9, 2, 9, 0, 0, 0, 0, 1023],
            [116, 9, 0, 10, 0, 0, 0, 0, 1023],
        ],
        refusal: 1,
    },
    Printed {
        name: "table 40, intensity and alpha",
        total_size: 92,
        block_size: 88,
        dimensions: [0, 0, 0, 0],
        planes: [1, 0, 0, 0, 0, 0, 0, 0],
        samples: &[
            [0, 7, 0, 0, 0, 0, 0, 0, 255],
            [0, 7, 1, 0, 0, 0, 0, 0, 255],
            [0, 7, 2, 0, 0, 0, 0, 0, 255],
            [0, 7, 31, 0, 0, 0, 0, 0, 255],
        ],
        refusal: 1,
    },
    Printed {
        name: "table 41, 48-bit middle-endian red",
        total_size: 76,
        block_size: 72,
        dimensions: [0, 0, 0, 0],
        planes: [6, 0, 0, 0, 0, 0, 0, 0],
        samples: &[
            [32, 15, 64, 0, 0, 0, 0, 0, 0],
            [16, 15, 64, 0, 0, 0, 0, 0, 0xffff_ffff],
            [0, 15, 64, 0, 0, 0, 0, 0xffff_8000, 32767],
        ],
        refusal: 5,
    },
    Printed {
        name: "table 42, 16-bit float, explicitly",
        total_size: 76,
        block_size: 72,
        dimensions: [0, 0, 0, 0],
        planes: [2, 0, 0, 0, 0, 0, 0, 0],
        samples: &[
            [0, 9, 0, 0, 0, 0, 0, 0, 1024],
            [15, 0, 64, 0, 0, 0, 0, 0xffff_ffff, 0],
            [10, 4, 32, 0, 0, 0, 0, 15, 30],
        ],
        refusal: 4,
    },
    Printed {
        name: "table 43, 16-bit float, normally",
        total_size: 44,
        block_size: 40,
        dimensions: [0, 0, 0, 0],
        planes: [2, 0, 0, 0, 0, 0, 0, 0],
        samples: &[[0, 15, 192, 0, 0, 0, 0, 0x0bf8_0000, 0x03f8_0000]],
        refusal: 1,
    },
];

pub fn document_002(library: &Library, tally: &mut Tally) -> Flow {
    for printed in &PRINTED {
        refuses(library, tally, printed, OURS, printed.refusal)?;
        for colors in OTHERS {
            // What comes before the missing bytes is right if the size is.
            refuses(library, tally, printed, colors, printed.refusal.min(3))?;
        }
    }
    Flow::Continue(())
}

fn refuses(
    library: &Library,
    tally: &mut Tally,
    printed: &Printed,
    colors: [u8; 4],
    refusal: i64,
) -> Flow {
    let bytes = formed(printed, colors);
    compare_read(library, tally, &bytes)?;
    let expected = Outcome::of(size_of::<Layout>(), |out| expected_read(&bytes, out));
    tally.compare(expected.answer == -refusal, || {
        format!(
            "{} with {colors:?}: the reference answers {}, must be {}",
            printed.name, expected.answer, -refusal
        )
    })
}

fn formed(printed: &Printed, colors: [u8; 4]) -> Vec<u8> {
    let mut bytes = printed.total_size.to_le_bytes().to_vec();
    // Vendor and type 0, version 1.
    bytes.extend([0, 0, 0, 0, 1, 0]);
    bytes.extend(printed.block_size.to_le_bytes());
    bytes.extend(colors);
    bytes.extend(printed.dimensions);
    bytes.extend(printed.planes);
    for &[offset, length, channel, x, y, z, w, lower, upper] in printed.samples {
        bytes.extend((offset as u16).to_le_bytes());
        bytes.extend([length, channel, x, y, z, w].map(|number| number as u8));
        bytes.extend(lower.to_le_bytes());
        bytes.extend(upper.to_le_bytes());
    }
    bytes
}
