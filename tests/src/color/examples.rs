//! The paper's marked examples M11 and M12, and points worked out by hand, in the
//! older full range, at the ends of narrow range and exactly half a code beyond an end
//! too. The library and the reference are both compared with them.

use crate::guarded::{Guarded, Outcome};
use crate::library::{Conversion, Direction, Library, CUTS};
use crate::tally::{Flow, Tally};
use crate::wrong::REFERENCE;

use Direction::{RgbToYcbcr, YcbcrToRgb};

struct Example {
    name: &'static str,
    direction: Direction,
    conversion: Conversion,
    given: [u16; 3],
    made: [u16; 3],
    cuts: u32,
}

/// The last number is that of the cuts.
const fn example(
    name: &'static str,
    direction: Direction,
    conversion: Conversion,
    given: [u16; 3],
    made: [u16; 3],
    cuts: u32,
) -> Example {
    Example {
        name,
        direction,
        conversion,
        given,
        made,
        cuts,
    }
}

const MARKED: [Example; 32] = [
    // M11's Cr is 128 + 127.5 = 255.5, which is rounded up past the end, and cut. M12's
    // G' is -0.0194, which is rounded to 0, and is not cut.
    example(
        "M11",
        RgbToYcbcr,
        [1, 8, 2, 2],
        [255, 0, 0],
        [54, 99, 255],
        1,
    ),
    example(
        "M12",
        YcbcrToRgb,
        [1, 8, 2, 2],
        [54, 99, 255],
        [254, 0, 0],
        0,
    ),
    // Cb of blue and Cr of red are 1/2, of yellow and cyan -1/2: the ends of narrow
    // range, and in full range ties, of which the upper one is clamped.
    // 16 + 219 * 0.0593 = 28.9867; Cr = -0.0593/1.4746 and 128 + 224 Cr = 118.9920.
    example(
        "blue",
        RgbToYcbcr,
        [4, 8, 2, 1],
        [0, 0, 255],
        [29, 240, 119],
        0,
    ),
    // 4 (16 + 219 * 0.886) = 840.136; Cr = 0.114/1.402 and 4 (128 + 224 Cr) = 584.8559.
    example(
        "yellow",
        RgbToYcbcr,
        [2, 10, 2, 1],
        [1023, 1023, 0],
        [840, 64, 585],
        0,
    ),
    // 4095 * 0.299 = 1224.405; Cb = -0.299/1.772 and 2048 + 4095 Cb = 1357.0265.
    example(
        "red",
        RgbToYcbcr,
        [3, 12, 1, 2],
        [235 << 4, 16 << 4, 16 << 4],
        [1224, 1357, 4095],
        1,
    ),
    // 4095 * 0.701 = 2870.595; Cb = 0.299/1.772 and 2048 + 4095 Cb = 2738.9735.
    example(
        "cyan",
        RgbToYcbcr,
        [3, 12, 1, 2],
        [16 << 4, 235 << 4, 235 << 4],
        [2871, 2739, 1],
        0,
    ),
    // The ends of Cr at Y' = 1/2: R' = 1/2 + 0.7874, clamped;
    // G' = 1/2 - 0.33480248/(2 * 0.7152) and 4 (16 + 219 G') = 296.9616.
    example(
        "Cr at its upper end",
        YcbcrToRgb,
        [1, 10, 1, 1],
        [502, 512, 960],
        [1019, 297, 502],
        1,
    ),
    example(
        "Cr at its lower end",
        YcbcrToRgb,
        [1, 10, 1, 1],
        [502, 512, 64],
        [4, 707, 502],
        1,
    ),
    example(
        "black to full",
        YcbcrToRgb,
        [4, 10, 1, 2],
        [64, 512, 512],
        [0; 3],
        0,
    ),
    example(
        "white to full",
        YcbcrToRgb,
        [4, 10, 1, 2],
        [940, 512, 512],
        [1023; 3],
        0,
    ),
    // 1023 * -64/876 = -74.7397.
    example(
        "blacker than black",
        YcbcrToRgb,
        [4, 10, 1, 2],
        [0, 512, 512],
        [0; 3],
        3,
    ),
    example(
        "base of full differences",
        YcbcrToRgb,
        [2, 12, 2, 2],
        [1000, 2048, 2048],
        [1000; 3],
        0,
    ),
    // The older full range: 256 * 0.2126 = 54.4256; Cb = -0.2126/1.8556 and
    // 256 (Cb + 1/2) = 98.6695; Cr is 1/2, which is 256, clamped.
    example(
        "older red of full",
        RgbToYcbcr,
        [1, 8, 2, 3],
        [255, 0, 0],
        [54, 99, 255],
        1,
    ),
    // Of 255/256: 255 * 0.2126 = 54.2130; 128 - 255 * 0.2126/1.8556 = 98.7841;
    // 128 + 127.5 = 255.5, rounded up and clamped.
    example(
        "older red",
        RgbToYcbcr,
        [1, 8, 3, 3],
        [255, 0, 0],
        [54, 99, 255],
        1,
    ),
    // 128 - 127.5 = 1/2, rounded up.
    example(
        "older cyan",
        RgbToYcbcr,
        [1, 8, 3, 3],
        [0, 255, 255],
        [201, 157, 1],
        0,
    ),
    // In full range: 255 * 255/256 = 254.0039.
    example(
        "older white to full",
        YcbcrToRgb,
        [2, 8, 3, 2],
        [255, 128, 128],
        [254; 3],
        0,
    ),
    // 1023/1024 of narrow range: 64 + 876 * 1023/1024 = 939.1445.
    example(
        "older white to narrow",
        RgbToYcbcr,
        [4, 10, 3, 1],
        [1023; 3],
        [939, 512, 512],
        0,
    ),
    example(
        "white to older",
        YcbcrToRgb,
        [4, 12, 1, 3],
        [3760, 2048, 2048],
        [4092; 3],
        3,
    ),
    example(
        "full white to older",
        RgbToYcbcr,
        [4, 12, 2, 3],
        [4095; 3],
        [4092, 2048, 2048],
        1,
    ),
    // Codes above the top are worth what the formula says: 4095 * 4095/4096 = 4094.0002.
    example(
        "older 4095 to full",
        YcbcrToRgb,
        [1, 12, 3, 2],
        [4095, 2048, 2048],
        [4094; 3],
        0,
    ),
    example(
        "older 4094 and back",
        RgbToYcbcr,
        [3, 12, 3, 3],
        [4094; 3],
        [4092, 2048, 2048],
        1,
    ),
    // Beyond narrow range: 128 + 224 * 255/438 = 258.4110, clamped, as are -2.4110,
    // 1035.1781, -11.1781, 4142.2466 and -46.2466.
    example(
        "over blue at 8 bits",
        RgbToYcbcr,
        [1, 8, 1, 1],
        [0, 0, 255],
        [18, 254, 116],
        1,
    ),
    example(
        "over yellow at 8 bits",
        RgbToYcbcr,
        [1, 8, 1, 1],
        [255, 255, 0],
        [237, 1, 140],
        1,
    ),
    example(
        "over blue at 10 bits",
        RgbToYcbcr,
        [4, 10, 1, 1],
        [0, 0, 1023],
        [61, 1019, 470],
        1,
    ),
    example(
        "over yellow at 10 bits",
        RgbToYcbcr,
        [4, 10, 1, 1],
        [1023, 1023, 0],
        [962, 4, 554],
        1,
    ),
    example(
        "over red at 12 bits",
        RgbToYcbcr,
        [2, 12, 1, 1],
        [4095, 0, 0],
        [1224, 1341, 4079],
        1,
    ),
    example(
        "over cyan at 12 bits",
        RgbToYcbcr,
        [2, 12, 1, 1],
        [0, 4095, 4095],
        [2871, 2755, 16],
        1,
    ),
    // Into narrow range from full: R' = 1 + 1.5748 * 127/255 and 16 + 219 R' =
    // 406.7644; R' = -1.5748 * 128/255 and 16 + 219 R' = -157.1168.
    example(
        "white with the most of Cr",
        YcbcrToRgb,
        [1, 8, 2, 1],
        [255, 128, 255],
        [254, 184, 235],
        1,
    ),
    example(
        "black with the least of Cr",
        YcbcrToRgb,
        [1, 8, 2, 1],
        [0, 128, 0],
        [1, 67, 16],
        1,
    ),
    // And from the older full range: B' = 4095/4096 + 1.772 * 2047/4096 and
    // 16 (16 + 219 B') = 6862.1726; B' = -0.886 and 16 (16 + 219 B') = -2848.5440.
    example(
        "older white with the most of Cb",
        YcbcrToRgb,
        [2, 12, 3, 1],
        [4095, 4095, 2048],
        [3759, 3157, 4079],
        1,
    ),
    example(
        "older black with the least of Cb",
        YcbcrToRgb,
        [2, 12, 3, 1],
        [0, 0, 2048],
        [256, 859, 16],
        1,
    ),
    // A narrow code that is never made is worth what the formula says: with 1 for the
    // 0 and 254 for the 255, B' would be 249. R' is -18.6301, and G' -45.7127.
    example(
        "narrow 0 and 255 to full",
        YcbcrToRgb,
        [1, 8, 1, 2],
        [0, 255, 128],
        [0, 0, 250],
        2,
    ),
];

/// Numbers exactly half a code beyond an end, and beside that.
const HALVES: [Example; 23] = [
    // R' = Y' + 1.402 d: 350 - 1.402 * 250 = -1/2, where Round is -1, cut, and floor is 0,
    // not cut. G' = 350 + 250 * 0.419198/0.587 = 528.5341.
    example(
        "R' is -1/2",
        YcbcrToRgb,
        [2, 10, 2, 2],
        [350, 512, 262],
        [0, 529, 350],
        1,
    ),
    example(
        "R' is -1/2",
        YcbcrToRgb,
        [3, 10, 2, 2],
        [350, 512, 262],
        [0, 529, 350],
        1,
    ),
    example(
        "R' is -1/2, older",
        YcbcrToRgb,
        [2, 10, 3, 3],
        [350, 512, 262],
        [0, 529, 350],
        0,
    ),
    // A code more is 1/2, a code less -3/2, which is cut by both.
    example(
        "R' is 1/2",
        YcbcrToRgb,
        [2, 10, 2, 2],
        [351, 512, 262],
        [1, 530, 351],
        0,
    ),
    example(
        "R' is -3/2",
        YcbcrToRgb,
        [2, 10, 2, 2],
        [349, 512, 262],
        [0, 528, 349],
        1,
    ),
    example(
        "R' is -3/2, older",
        YcbcrToRgb,
        [2, 10, 3, 3],
        [349, 512, 262],
        [0, 528, 349],
        1,
    ),
    // 673 + 350.5 = 1023.5 is rounded up by both, past the end.
    example(
        "R' is 1023.5",
        YcbcrToRgb,
        [2, 10, 2, 2],
        [673, 512, 762],
        [1023, 494, 673],
        1,
    ),
    example(
        "R' is 1023.5, older",
        YcbcrToRgb,
        [2, 10, 3, 3],
        [673, 512, 762],
        [1023, 494, 673],
        1,
    ),
    // B' = Y' + 1.772 d: 221 - 1.772 * 125 = -1/2. R' = 221 + 1.402 * 24 = 254.648, and G'
    // = 221 + (125 * 0.202008 - 24 * 0.419198)/0.587 = 246.8778.
    example(
        "B' is -1/2",
        YcbcrToRgb,
        [2, 8, 2, 2],
        [221, 3, 152],
        [255, 247, 0],
        1,
    ),
    example(
        "B' is -1/2, older",
        YcbcrToRgb,
        [2, 8, 3, 3],
        [221, 3, 152],
        [255, 247, 0],
        0,
    ),
    // With Cr at its base G' is 264.0170.
    example(
        "B' is -1/2, G' beyond",
        YcbcrToRgb,
        [2, 8, 2, 2],
        [221, 3, 128],
        [221, 255, 0],
        2,
    ),
    example(
        "B' is -1/2, G' beyond, older",
        YcbcrToRgb,
        [2, 8, 3, 3],
        [221, 3, 128],
        [221, 255, 0],
        1,
    ),
    // 1968 - 1.5748 * 1250 and 2319 - 1.8556 * 1250; G' is 1968 + 585.1553 and 2319 +
    // 234.1553, by 0.33480248/0.7152 and 0.13397432/0.7152.
    example(
        "R' is -1/2 by BT.709",
        YcbcrToRgb,
        [1, 12, 2, 2],
        [1968, 2048, 798],
        [0, 2553, 1968],
        1,
    ),
    example(
        "B' is -1/2 by BT.709",
        YcbcrToRgb,
        [1, 12, 2, 2],
        [2319, 798, 2048],
        [2319, 2553, 0],
        1,
    ),
    example(
        "B' is -1/2 by BT.709, older",
        YcbcrToRgb,
        [1, 12, 3, 3],
        [2319, 798, 2048],
        [2319, 2553, 0],
        0,
    ),
    // 3041 + 1.402 * 750 = 4092.5: beyond the older full range's end, not beyond the full
    // one's.
    example(
        "R' is 4092.5, older",
        YcbcrToRgb,
        [2, 12, 3, 3],
        [3041, 2048, 2798],
        [4092, 2505, 3041],
        1,
    ),
    example(
        "R' is 4092.5",
        YcbcrToRgb,
        [2, 12, 2, 2],
        [3041, 2048, 2798],
        [4093, 2505, 3041],
        0,
    ),
    // G' = Y' - (0.202008 d + 0.419198 e)/0.587: 18 - 50 * 0.217190/0.587 = 18 - 50 * 0.37 =
    // -1/2. B' = 18 - 1.772 * 50 is cut in any case.
    example(
        "G' is -1/2",
        YcbcrToRgb,
        [2, 8, 2, 2],
        [18, 78, 178],
        [88, 0, 0],
        2,
    ),
    example(
        "G' is -1/2, older",
        YcbcrToRgb,
        [2, 8, 3, 3],
        [18, 78, 178],
        [88, 0, 0],
        1,
    ),
    // 237 + 18.5 = 255.5, and B' = 237 + 1.772 * 50.
    example(
        "G' is 255.5",
        YcbcrToRgb,
        [2, 8, 2, 2],
        [237, 178, 78],
        [167, 255, 255],
        2,
    ),
    example(
        "G' is 255.5, older",
        YcbcrToRgb,
        [2, 8, 3, 3],
        [237, 178, 78],
        [167, 255, 255],
        2,
    ),
    // 508 - 1250 (0.38737742 - 0.11156702)/0.678 = 508 - 508.5; B' = 508 - 1.8814 * 1250.
    example(
        "G' is -1/2 by BT.2020",
        YcbcrToRgb,
        [4, 12, 2, 2],
        [508, 798, 3298],
        [2351, 0, 0],
        2,
    ),
    example(
        "G' is -1/2 by BT.2020, older",
        YcbcrToRgb,
        [4, 12, 3, 3],
        [508, 798, 3298],
        [2351, 0, 0],
        1,
    ),
];

pub fn marked(library: &Library, tally: &mut Tally) -> Flow {
    for example in MARKED.iter().chain(&HALVES) {
        for (program, library) in [("library", library), ("reference", &REFERENCE)] {
            agrees(library, tally, program, example)?;
        }
    }
    Flow::Continue(())
}

/// On a point, and on the same point twice.
fn agrees(library: &Library, tally: &mut Tally, program: &str, example: &Example) -> Flow {
    for points in [1, 2] {
        let mut given = Guarded::holding(&example.given.repeat(points));
        let outcome = Outcome::with_cuts(3 * points, |out| {
            library.convert(example.direction, example.conversion, &mut given, out)
        });
        let told = (
            outcome.answer,
            outcome.cuts[CUTS],
            outcome.output.elements(),
        );
        let made = example.made.repeat(points);
        let must_be = (points as i64, example.cuts * points as u32, &made[..]);
        tally.compare(told == must_be, || {
            format!(
                "{}, {program}: points, cuts and codes {told:?}, must be {must_be:?}",
                example.name
            )
        })?;
    }
    Flow::Continue(())
}
