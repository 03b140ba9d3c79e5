//! Points worked out by hand, the library and the reference compared with them: by BT.709
//! at 8 bits one that moves as far as the bound lets it for each pair of ranges, and points
//! that the bound does not speak of, which move farther.

use reference::bound::{self, most_by_ranges, moved, Way};

use crate::library::Library;
use crate::tally::{Flow, Tally};

use super::Trip;

pub struct Example {
    name: &'static str,
    pub way: Way,
    pub given: [u16; 3],
    ycbcr: [u16; 3],
    pub back: [u16; 3],
}

const fn example(
    name: &'static str,
    way: Way,
    given: [u16; 3],
    ycbcr: [u16; 3],
    back: [u16; 3],
) -> Example {
    Example {
        name,
        way,
        given,
        ycbcr,
        back,
    }
}

/// Each moves by just the bound.
pub const FARTHEST: [Example; 4] = [
    // Y' = 16 + 0.2126 * 99 + 0.7152 * 3 = 39.1930; Cb = 128 - 224/219 * 23.1930/1.8556 =
    // 115.2157, Cr = 128 + 224/219 * 75.8070/1.5748 = 177.2366. Back: R' = 39 + 219/224 * 49
    // * 1.5748 = 114.4428, and B' = 39 - 219/224 * 13 * 1.8556 = 15.4157.
    example(
        "narrow",
        [1, 8, 1, 1],
        [115, 19, 16],
        [39, 115, 177],
        [114, 19, 15],
    ),
    // Y' = 255 * 0.7152 = 182.3760; Cb = 128 - 182.3760/1.8556 = 29.7159, Cr = 128 -
    // 182.3760/1.5748 = 12.1910. Back: R' = 16 + 219/255 (182 - 116 * 1.5748) = 15.4187.
    example(
        "narrow through full",
        [1, 8, 1, 2],
        [16, 235, 16],
        [182, 30, 12],
        [15, 235, 16],
    ),
    // Y' = 255 - 78 * 0.7152 = 199.2144; Cb = 128 + 55.7856/1.8556 = 158.0634, Cr = 128 +
    // 55.7856/1.5748 = 163.4239. Back: R' = 199 + 35 * 1.5748 = 254.1180.
    example(
        "full",
        [1, 8, 2, 2],
        [255, 177, 255],
        [199, 158, 163],
        [254, 177, 255],
    ),
    // 102 * 0.7152 + 255 * 0.0722 = 91.3614, and Y' = 16 + 219/255 of that = 94.4633; Cb =
    // 128 + 224/255 * 163.6386/1.8556 = 205.4657, Cr = 128 - 224/255 * 91.3614/1.5748 =
    // 77.0382. Back: B' = 255 (78/219 + 1.8556 * 77/224) = 253.4769.
    example(
        "full through narrow",
        [1, 8, 2, 1],
        [0, 102, 255],
        [94, 205, 77],
        [0, 102, 253],
    ),
];

/// Each moves by more than its ranges would allow, or by more than any would.
const BEYOND: [Example; 9] = [
    // 255 * 239/219 and 255 * -16/219 are cut to the ends of full range, white and black.
    example(
        "narrow 255 through full",
        [1, 8, 1, 2],
        [255; 3],
        [255, 128, 128],
        [235; 3],
    ),
    example(
        "narrow 0 through full",
        [1, 8, 1, 2],
        [0; 3],
        [0, 128, 128],
        [16; 3],
    ),
    // And the first greys that move by 2: 255 * 221/219 and 255 * -2/219.
    example(
        "narrow 237 through full",
        [4, 8, 1, 2],
        [237; 3],
        [255, 128, 128],
        [235; 3],
    ),
    example(
        "narrow 14 through full",
        [4, 8, 1, 2],
        [14; 3],
        [0, 128, 128],
        [16; 3],
    ),
    example(
        "narrow 4095 through full",
        [2, 12, 1, 2],
        [4095; 3],
        [4095, 2048, 2048],
        [3760; 3],
    ),
    // One code that is one too high: 255/219 * 220 * 0.2126 = 54.4606; Cr = 128 + 255/219 *
    // 110 = 256.0822, cut. Back: R' = 16 + 219/255 (54 + 127 * 1.5748) = 234.1431.
    example(
        "narrow 236 through full",
        [1, 8, 1, 2],
        [236, 16, 16],
        [54, 99, 255],
        [234, 16, 16],
    ),
    // And one too low: 255/219 (219 * 0.2126 - 0.7152) = 53.3802; Cr = 128 + 255/219 *
    // 173.1558/1.5748 = 256.0288, cut. Back: R' = 16 + 219/255 (53 + 127 * 1.5748) =
    // 233.2843.
    example(
        "narrow 15 through full",
        [1, 8, 1, 2],
        [235, 15, 16],
        [53, 99, 255],
        [233, 15, 15],
    ),
    // Cb = 128 + 224 * 255/438 = 258.4110, cut. Back: B' = 18 + 219/224 * 126 * 1.8556 =
    // 246.5867; R' and G' are cut.
    example(
        "narrow 0 and 255",
        [1, 8, 1, 1],
        [0, 0, 255],
        [18, 254, 116],
        [1, 1, 247],
    ),
    // The older full range: 4095 is above its end.
    example(
        "older 4095",
        [1, 12, 3, 3],
        [4095; 3],
        [4092, 2048, 2048],
        [4092; 3],
    ),
];

pub fn worked_out(library: &Library, tally: &mut Tally) -> Flow {
    for example in &FARTHEST {
        agrees(library, tally, example)?;
        let (most, moves) = (bound::most(example.way, example.given), example.moves());
        tally.compare(most == Some(moves), || {
            format!("{}: moves by {moves}, at most {most:?}", example.name)
        })?;
    }
    for example in &BEYOND {
        agrees(library, tally, example)?;
        let [_, _, first, second] = example.way;
        let (most, moves) = (bound::most(example.way, example.given), example.moves());
        // No bound is above 2.
        let farther = moves > most_by_ranges(first, second).unwrap_or(2);
        tally.compare(most.is_none() && farther, || {
            format!("{}: moves by {moves}, bounded by {most:?}", example.name)
        })?;
    }
    Flow::Continue(())
}

impl Example {
    fn moves(&self) -> u16 {
        let [red, green, blue] = moved(self.given, self.back);
        red.max(green).max(blue)
    }
}

fn agrees(library: &Library, tally: &mut Tally, example: &Example) -> Flow {
    let Example {
        name,
        way,
        given,
        ycbcr,
        back,
    } = example;
    let trip = Trip::of(library, *way, given);
    let told = (trip.answers, trip.ycbcr.elements(), trip.rgb.elements());
    let must_be = ([1, 1], &ycbcr[..], &back[..]);
    tally.compare(told == must_be, || {
        format!("{name}, library: answers and codes {told:?}, must be {must_be:?}")
    })?;
    let told = bound::there_and_back(*way, *given).map(|trip| (trip.ycbcr, trip.rgb));
    let must_be = Ok((*ycbcr, *back));
    tally.compare(told == must_be, || {
        format!("{name}, reference: codes {told:?}, must be {must_be:?}")
    })
}
