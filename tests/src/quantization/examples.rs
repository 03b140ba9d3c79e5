//! The paper's marked examples and traps by name, the requests' for the older full
//! range, for the ends of narrow range and for cuts, and the figures that document 000
//! publishes. The numbers are copied from there or worked out by hand, so the library
//! and the reference are both compared with them.

use crate::library::{Library, Setting, CUTS, EMPTY_SLOT, FLOAT};
use crate::tally::{Flow, Tally};

use super::{expected_dequantize, expected_quantize, words};

/// A value that must become a code, and be cut or not.
struct Example {
    name: &'static str,
    setting: Setting,
    value: f32,
    code: u16,
    cut: bool,
}

/// One that is not cut.
const fn example(name: &'static str, setting: Setting, value: f32, code: u16) -> Example {
    Example {
        name,
        setting,
        value,
        code,
        cut: false,
    }
}

/// One that is.
const fn cut(name: &'static str, setting: Setting, value: f32, code: u16) -> Example {
    Example {
        cut: true,
        ..example(name, setting, value, code)
    }
}

/// The float just under 1/8, namely 1/8 - 2^-27.
const UNDER_AN_EIGHTH: f32 = 0.125 - 1.0 / 134_217_728.0;

const MARKED: [Example; 52] = [
    example("M1", [1, 1, 8, 0], 1.0, 235),
    example("M2", [2, 1, 8, 1], -0.5, 16),
    example("M3", [2, 1, 8, 1], 0.5, 240),
    cut("M4", [2, 2, 8, 1], 0.5, 255),
    example("M5", [2, 2, 8, 1], -0.5, 1),
    cut("M6", [1, 2, 8, 0], -0.25, 0),
    example("M7", [1, 1, 10, 0], 0.125, 174),
    example("M8", [1, 1, 10, 0], UNDER_AN_EIGHTH, 173),
    example("M9", [2, 2, 12, 1], 0.0, 2048),
    example("M10", [1, 1, 8, 0], 0.5, 126),
    example(
        "trap: step by step in f32",
        [2, 1, 10, 0],
        UNDER_AN_EIGHTH,
        173,
    ),
    example("trap: 128 at every depth", [2, 2, 8, 2], 0.0, 128),
    example("trap: 128 at every depth", [2, 2, 10, 2], 0.0, 512),
    example("trap: 128 at every depth", [2, 2, 12, 2], 0.0, 2048),
    cut("trap: 0.5 wraps to 0", [2, 2, 8, 2], 0.5, 255),
    cut("trap: 0.5 wraps to 0", [2, 2, 10, 2], 0.5, 1023),
    cut("trap: 0.5 wraps to 0", [2, 2, 12, 2], 0.5, 4095),
    cut("trap: the sign left out", [1, 2, 8, 1], -1.0, 0),
    // The older full range: floor(1/2 + 256 v), where full range has Round(255 v).
    example("older: 1/2 is 128", [1, 3, 8, 0], 0.5, 128),
    example("older: 3/4 is 192", [1, 3, 8, 1], 0.75, 192),
    example("full: 3/4 is 191.25", [1, 2, 8, 1], 0.75, 191),
    cut("older: 1 is 256, clamped", [1, 3, 8, 2], 1.0, 255),
    cut("older: 1 is 1024, clamped", [2, 3, 10, 0], 1.0, 1023),
    cut("older: 1 is 4096, clamped", [2, 3, 12, 0], 1.0, 4092),
    cut(
        "older: 4094/4096, clamped",
        [1, 3, 12, 0],
        4094.0 / 4096.0,
        4092,
    ),
    cut(
        "older: half over 4092",
        [1, 3, 12, 0],
        4092.5 / 4096.0,
        4092,
    ),
    example(
        "older: half over 4091",
        [1, 3, 12, 0],
        4091.5 / 4096.0,
        4092,
    ),
    example(
        "older: under half over 4091",
        [1, 3, 12, 0],
        4091.4375 / 4096.0,
        4091,
    ),
    example("older: half over 0", [1, 3, 10, 0], 0.5 / 1024.0, 1),
    example(
        "older: under half over 0",
        [1, 3, 10, 0],
        0.4375 / 1024.0,
        0,
    ),
    example("older: half under 0", [1, 3, 10, 0], -0.5 / 1024.0, 0),
    cut("older: under 0", [1, 3, 10, 0], -1.0, 0),
    // floor(1/2 + (v + 1/2) 2^n).
    example("older: -1/2 is 0", [2, 3, 8, 1], -0.5, 0),
    example("full: -1/2 is 1/2, rounded up", [2, 2, 8, 1], -0.5, 1),
    example("older: -1/4 is 64", [2, 3, 8, 2], -0.25, 64),
    example("older: 1/4 is 3072", [2, 3, 12, 1], 0.25, 3072),
    cut("older: 1/2 is 256, clamped", [2, 3, 8, 1], 0.5, 255),
    cut("older: 1/2 is 1024, clamped", [2, 3, 10, 2], 0.5, 1023),
    cut("older: 1/2 is 4096, clamped", [2, 3, 12, 2], 0.5, 4092),
    example("older: half over -1/2", [2, 3, 8, 1], -0.5 + 0.5 / 256.0, 1),
    cut(
        "older: the top for infinity",
        [1, 3, 12, 0],
        f32::INFINITY,
        4092,
    ),
    cut(
        "older: 0 for minus infinity",
        [2, 3, 12, 1],
        f32::NEG_INFINITY,
        0,
    ),
    // The ends of narrow range, beyond which the formulas go on.
    cut("narrow: 1.25 is 289.75, clamped", [1, 1, 8, 0], 1.25, 254),
    cut("narrow: 1.25 is 1159, clamped", [1, 1, 10, 1], 1.25, 1019),
    cut("narrow: 1.25 is 4636, clamped", [2, 1, 12, 0], 1.25, 4079),
    cut("narrow: -0.25 is -38.75, clamped", [2, 1, 8, 0], -0.25, 1),
    cut("narrow: -0.25 is -155, clamped", [1, 1, 10, 2], -0.25, 4),
    cut("narrow: -0.25 is -620, clamped", [1, 1, 12, 0], -0.25, 16),
    cut("narrow: 0.75 is 1184, clamped", [2, 1, 10, 1], 0.75, 1019),
    cut("narrow: -0.75 is -640, clamped", [2, 1, 12, 2], -0.75, 16),
    // 145/256 is 507.5 codes of 10 bits: the one tie of a float beside an end.
    cut(
        "narrow: 145/256 is 1019.5, clamped",
        [2, 1, 10, 1],
        145.0 / 256.0,
        1019,
    ),
    example(
        "narrow: -145/256 is 4.5, rounded up",
        [2, 1, 10, 2],
        -145.0 / 256.0,
        5,
    ),
];

/// The span's borders, half a code beyond its ends: values on each side of them, and on
/// the borders that are floats. What each is before it is rounded stands beside it.
const BORDERS: [Example; 46] = [
    // Narrow brightness, 16 + 219 v: 254.491 and 254.5129, 0.5167 and 0.4948.
    example("narrow: under half over 254", [1, 1, 8, 0], 1.0890, 254),
    cut("narrow: over half over 254", [1, 1, 8, 0], 1.0891, 254),
    example("narrow: under half under 1", [2, 1, 8, 0], -0.0707, 1),
    cut("narrow: over half under 1", [2, 1, 8, 0], -0.0708, 1),
    // Its ends at 12 bits, (16 - 256)/3504 and (4079 - 256)/3504, are not cut.
    example("narrow: 16", [1, 1, 12, 1], -240.0 / 3504.0, 16),
    example("narrow: 4079", [1, 1, 12, 1], 3823.0 / 3504.0, 4079),
    cut("narrow: 15", [1, 1, 12, 1], -241.0 / 3504.0, 16),
    cut("narrow: 4080", [1, 1, 12, 1], 3824.0 / 3504.0, 4079),
    // Narrow differences, 128 + 224 v: 254.4928 and 254.5152, 0.5216 and 0.4992.
    example("narrow: under half over 254", [2, 1, 8, 1], 0.5647, 254),
    cut("narrow: over half over 254", [2, 1, 8, 1], 0.5648, 254),
    example("narrow: under half under 1", [2, 1, 8, 2], -0.5691, 1),
    cut("narrow: over half under 1", [2, 1, 8, 2], -0.5692, 1),
    // The one border of narrow range that is a float is 1019.5, above; just under it:
    // 4 (128 + 224 * 0.56640619) is less than 1019.5 by 0.0000534.
    example(
        "narrow: just under 1019.5",
        [2, 1, 10, 1],
        (145.0 - 1.0 / 65_536.0) / 256.0,
        1019,
    ),
    // Full range, 255 v: 255.4845 and 255.51, -0.4845 and -0.51.
    example("full: under half over 255", [1, 2, 8, 0], 1.0019, 255),
    cut("full: over half over 255", [1, 2, 8, 0], 1.002, 255),
    example("full: under half under 0", [1, 2, 8, 1], -0.0019, 0),
    cut("full: over half under 0", [1, 2, 8, 1], -0.002, 0),
    example("full: 255", [2, 2, 8, 0], 1.0, 255),
    example("full: 0", [2, 2, 8, 0], 0.0, 0),
    example("full: minus zero", [2, 2, 8, 0], -0.0, 0),
    // 128 + 255 v: 255.4999 where 1/2 is 255.5; -0.4945 and -0.52.
    example("full: just under 1/2", [2, 2, 8, 1], 0.499_999_7, 255),
    example("full: under half under 0", [2, 2, 8, 1], -0.5039, 0),
    cut("full: over half under 0", [2, 2, 8, 1], -0.504, 0),
    // 512 + 1023/2 and 2048 + 4095/2 are rounded up, past the end.
    cut("full: 1023.5", [2, 2, 10, 2], 0.5, 1023),
    cut("full: 4095.5", [2, 2, 12, 2], 0.5, 4095),
    // The least floats are rounded to the base, on either side of it.
    example("full: the least float", [1, 2, 12, 0], f32::from_bits(1), 0),
    example(
        "full: the least under 0",
        [1, 2, 12, 0],
        -f32::from_bits(1),
        0,
    ),
    example(
        "older: the least under 0",
        [1, 3, 12, 0],
        -f32::from_bits(1),
        0,
    ),
    // The older full range, where floor(1/2 - 1/2) is 0: not cut, but beyond it cut.
    example("older: -1/2", [1, 3, 8, 0], -0.5 / 256.0, 0),
    cut(
        "older: beyond -1/2",
        [1, 3, 8, 0],
        (-0.5 - 1.0 / 65_536.0) / 256.0,
        0,
    ),
    example("older: -1/2", [1, 3, 12, 1], -0.5 / 4096.0, 0),
    cut(
        "older: beyond -1/2",
        [1, 3, 12, 1],
        (-0.5 - 1.0 / 65_536.0) / 4096.0,
        0,
    ),
    example("older: -1/2", [2, 3, 8, 1], -0.5 - 0.5 / 256.0, 0),
    cut("older: beyond -1/2", [2, 3, 8, 1], -0.5 - 0.5625 / 256.0, 0),
    example("older: -1/2", [2, 3, 10, 2], -0.5 - 0.5 / 1024.0, 0),
    cut(
        "older: beyond -1/2",
        [2, 3, 10, 2],
        -0.5 - 0.5625 / 1024.0,
        0,
    ),
    // floor(1/2 + 255.5) is 256, and floor(1/2 + 255.4375) is 255.
    cut("older: 255.5", [1, 3, 8, 2], 255.5 / 256.0, 255),
    example("older: under 255.5", [1, 3, 8, 2], 255.4375 / 256.0, 255),
    example("older: 255", [1, 3, 8, 2], 255.0 / 256.0, 255),
    cut("older: 4092.5", [2, 3, 12, 2], 2044.5 / 4096.0, 4092),
    example(
        "older: under 4092.5",
        [2, 3, 12, 2],
        2044.4375 / 4096.0,
        4092,
    ),
    example("older: 4092", [2, 3, 12, 2], 2044.0 / 4096.0, 4092),
    cut("older: 4093", [2, 3, 12, 2], 2045.0 / 4096.0, 4092),
    cut("older: 4095", [1, 3, 12, 0], 4095.0 / 4096.0, 4092),
    // Far beyond, on both sides.
    cut("narrow: the greatest float", [2, 1, 10, 1], f32::MAX, 1019),
    cut("full: the least of all", [1, 2, 10, 1], f32::MIN, 0),
];

/// Codes of the older full range and what they are worth, at the three codes above
/// its top too.
const OLDER: [Example; 9] = [
    example("older 200", [1, 3, 8, 0], 0.78125, 200),
    example("older 255", [1, 3, 8, 0], 255.0 / 256.0, 255),
    example("older 0, a difference", [2, 3, 8, 1], -0.5, 0),
    example("older 1, a difference", [2, 3, 10, 1], -511.0 / 1024.0, 1),
    example("older 4092", [1, 3, 12, 0], 4092.0 / 4096.0, 4092),
    example("older 4093", [1, 3, 12, 1], 4093.0 / 4096.0, 4093),
    example("older 4094", [2, 3, 12, 0], 4094.0 / 4096.0, 4094),
    example("older 4095", [1, 3, 12, 2], 4095.0 / 4096.0, 4095),
    example(
        "older 4095, a difference",
        [2, 3, 12, 2],
        2047.0 / 4096.0,
        4095,
    ),
];

/// Narrow codes that are never made and what they are worth.
const BEYOND: [Example; 8] = [
    example("narrow 0", [1, 1, 8, 0], -16.0 / 219.0, 0),
    example("narrow 255", [1, 1, 8, 1], 239.0 / 219.0, 255),
    example("narrow 3", [2, 1, 10, 0], -61.0 / 876.0, 3),
    example("narrow 1020", [1, 1, 10, 2], 956.0 / 876.0, 1020),
    example("narrow 4095", [1, 1, 12, 0], 3839.0 / 3504.0, 4095),
    example("narrow 0, a difference", [2, 1, 8, 1], -128.0 / 224.0, 0),
    example(
        "narrow 1023, a difference",
        [2, 1, 10, 2],
        511.0 / 896.0,
        1023,
    ),
    example(
        "narrow 15, a difference",
        [2, 1, 12, 1],
        -2033.0 / 3584.0,
        15,
    ),
];

pub fn marked(library: &Library, tally: &mut Tally) -> Flow {
    for example in MARKED.iter().chain(&BORDERS) {
        quantizes(library, tally, example)?;
    }
    for example in OLDER.iter().chain(&BEYOND) {
        dequantizes(library, tally, example)?;
    }
    // The base is the code of plus zero, at every depth.
    for (depth, code) in [(8, 128), (10, 512), (12, 2048)] {
        for channel in [1, 2] {
            for range in [2, 3] {
                let name = "trap: 128 at every depth";
                let example = example(name, [2, range, depth, channel], 0.0, code);
                dequantizes(library, tally, &example)?;
            }
        }
    }
    Flow::Continue(())
}

/// The two tables of document 000, "That is, in narrow range encoding" and
/// "That is, in full range encoding", and the two notes under its legacy full range,
/// for every depth and channel.
pub fn published(library: &Library, tally: &mut Tally) -> Flow {
    for depth in [8, 10, 12] {
        let s = 1_u16 << (depth - 8);
        let top = (1_u16 << depth) - 1;
        let half = 1_u16 << (depth - 1);
        let older_top = if depth == 12 { 4092 } else { top };
        for [model, channel] in [[1, 0], [1, 1], [1, 2], [2, 0]] {
            let narrow = [model, 1, depth, channel];
            let full = [model, 2, depth, channel];
            let older = [model, 3, depth, channel];
            for example in [
                example("narrow black", narrow, 0.0, 16 * s),
                example("narrow peak brightness", narrow, 1.0, 235 * s),
                example("full black", full, 0.0, 0),
                example("full peak brightness", full, 1.0, top),
                example("older full black", older, 0.0, 0),
            ] {
                quantizes(library, tally, &example)?;
                dequantizes(library, tally, &example)?;
            }
            // It has no code of its own.
            let white = cut("older full peak brightness", older, 1.0, older_top);
            quantizes(library, tally, &white)?;
        }
        for [model, channel] in [[2, 1], [2, 2]] {
            let narrow = [model, 1, depth, channel];
            let full = [model, 2, depth, channel];
            let older = [model, 3, depth, channel];
            for example in [
                example("narrow minimum difference", narrow, -0.5, 16 * s),
                example("narrow maximum difference", narrow, 0.5, 240 * s),
                example("narrow achromatic", narrow, 0.0, 128 * s),
                example("full achromatic", full, 0.0, half),
                example("older full minimum difference", older, -0.5, 0),
                example("older full achromatic", older, 0.0, half),
            ] {
                quantizes(library, tally, &example)?;
                dequantizes(library, tally, &example)?;
            }
            // Two ties and one that is clamped, so their codes have other values. The
            // upper tie is rounded up past the end, and cut too.
            for example in [
                example("full minimum difference", full, -0.5, 1),
                cut("full maximum difference", full, 0.5, top),
                cut("older full maximum difference", older, 0.5, older_top),
            ] {
                quantizes(library, tally, &example)?;
            }
        }
    }
    Flow::Continue(())
}

/// Both ends of narrow range at every depth and for every channel: what is rounded to
/// them and to their neighbours, and what lies beyond. The other ranges go on to
/// their own ends.
pub fn narrow_ends(library: &Library, tally: &mut Tally) -> Flow {
    for (depth, low, high) in [(8, 1, 254), (10, 4, 1019), (12, 16, 4079)] {
        for [model, channel] in [[1, 0], [1, 1], [1, 2], [2, 0], [2, 1], [2, 2]] {
            for (name, number, code) in around_narrow_ends(low, high) {
                let value = narrow_value(number, depth, model == 2 && channel > 0);
                let setting = [model, 1, depth, channel];
                let beyond = number < f64::from(low) - 0.5 || number > f64::from(high) + 0.5;
                let make = if beyond { cut } else { example };
                quantizes(library, tally, &make(name, setting, value, code))?;
            }
            let all_codes = [0, (1 << depth) - 1];
            let older = if depth == 12 { [0, 4092] } else { all_codes };
            for (range, [bottom, top]) in [(1, [low, high]), (2, all_codes), (3, older)] {
                let setting = [model, range, depth, channel];
                for value in [f32::INFINITY, f32::MAX, 2.0] {
                    quantizes(library, tally, &cut("the top", setting, value, top))?;
                    quantizes(library, tally, &cut("the bottom", setting, -value, bottom))?;
                }
            }
        }
    }
    Flow::Continue(())
}

/// Numbers that are not rounded yet, and their codes. None is a tie: but for the two
/// among the marked ones, the ties here are no floats. The sixteenths tell which side of
/// one they are on.
fn around_narrow_ends(low: u16, high: u16) -> [(&'static str, f64, u16); 12] {
    let [bottom, top] = [low, high].map(f64::from);
    [
        ("the top less 1", top - 1.0, high - 1),
        ("over half below the top", top - 9.0 / 16.0, high - 1),
        ("under half below the top", top - 7.0 / 16.0, high),
        ("the top", top, high),
        ("under half above the top", top + 7.0 / 16.0, high),
        ("over half above the top", top + 9.0 / 16.0, high),
        ("the bottom and 1", bottom + 1.0, low + 1),
        ("over half above the bottom", bottom + 9.0 / 16.0, low + 1),
        ("under half above the bottom", bottom + 7.0 / 16.0, low),
        ("the bottom", bottom, low),
        ("under half below the bottom", bottom - 7.0 / 16.0, low),
        ("over half below the bottom", bottom - 9.0 / 16.0, low),
    ]
}

/// The float nearest to what a number of narrow range is worth: near enough, at these
/// numbers, to be rounded as it would be.
fn narrow_value(number: f64, depth: u8, difference: bool) -> f32 {
    let s = f64::from(1_u16 << (depth - 8));
    let (base, span) = if difference {
        (128.0, 224.0)
    } else {
        (16.0, 219.0)
    };
    ((number - base * s) / (span * s)) as f32
}

fn quantizes(library: &Library, tally: &mut Tally, example: &Example) -> Flow {
    let bits = example.value.to_bits();
    let must_be = (i64::from(example.code), u32::from(example.cut));
    let mut slots = [EMPTY_SLOT; 2];
    let [slot, reference_slot] = &mut slots;
    let answers = [
        (library.quantize)(example.setting, example.value, slot),
        expected_quantize(example.setting, bits, reference_slot),
    ];
    for (place, program) in ["library", "reference"].into_iter().enumerate() {
        let told = (answers[place], slots[place][CUTS]);
        tally.compare(told == must_be, || {
            format!(
                "{}, {program}: quantize {}, value 0x{bits:08x}: code and cuts {told:?}, \
                 must be {must_be:?}",
                example.name,
                words(example.setting)
            )
        })?;
    }
    Flow::Continue(())
}

fn dequantizes(library: &Library, tally: &mut Tally, example: &Example) -> Flow {
    let bits = example.value.to_bits();
    let mut by_library = EMPTY_SLOT;
    (library.dequantize)(example.setting, example.code, &mut by_library);
    let mut by_reference = EMPTY_SLOT;
    expected_dequantize(example.setting, example.code, &mut by_reference);
    for (program, slot) in [("library", by_library), ("reference", by_reference)] {
        tally.compare(slot[FLOAT] == bits, || {
            format!(
                "{}, {program}: dequantize {}, code {}: 0x{:08x}, must be 0x{bits:08x}",
                example.name,
                words(example.setting),
                example.code,
                slot[FLOAT]
            )
        })?;
    }
    Flow::Continue(())
}
