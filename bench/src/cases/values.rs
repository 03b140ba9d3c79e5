//! Single values and points of any settings.

use super::{label, MANY};
use crate::before::Before;
use crate::case::{call_side, Case, NO_CUTS};
use crate::library;
use crate::plain;
use crate::plain::layout::Numbers;
use crate::plain::values::Setting;
use crate::random::Random;

/// The longest point, in bytes.
const LONGEST: usize = 8;

pub fn cases(before: Option<&Before>) -> Result<Vec<Case>, String> {
    Ok(vec![
        dequantize()?,
        quantize(before)?,
        decode_point(before)?,
        encode_point(before)?,
    ])
}

fn dequantize() -> Result<Case, String> {
    let mut random = Random::new();
    let coded = |_| {
        let setting = setting(&mut random);
        (setting, random.code(setting[2]))
    };
    Case::calls(
        label("dequantize", "one value", "any codes"),
        (0..MANY).map(coded).collect(),
        &[([2, 1, 9, 0], 0), ([2, 1, 8, 0], 256)],
        0.0,
        [
            |(setting, code), value| library::values::dequantize(*setting, *code, value),
            |(setting, code), value| plain::values::dequantize(*setting, *code, value),
        ],
    )
}

fn quantize(before: Option<&Before>) -> Result<Case, String> {
    let mut random = Random::new();
    let valued = |_| (setting(&mut random), random.value());
    let floats: Vec<(Setting, f32)> = (0..MANY).map(valued).collect();
    let before = before.and_then(Before::quantize).map(|jobs| {
        jobs.map(|job| {
            call_side(
                move |(setting, value), cuts| job(*setting, *value, cuts),
                floats.clone(),
                NO_CUTS,
            )
        })
    });
    Case::calls(
        label("quantize", "one value", "any floats"),
        floats,
        &[([2, 1, 9, 0], 0.0), ([2, 1, 8, 0], f32::NAN)],
        NO_CUTS,
        [
            |(setting, value), cuts| library::values::quantize(*setting, *value, cuts),
            |(setting, value), cuts| plain::values::quantize(*setting, *value, cuts),
        ],
    )?
    .beside(before)
}

fn decode_point(before: Option<&Before>) -> Result<Case, String> {
    let mut random = Random::new();
    let point = |_| {
        let layout = random.layout();
        let bytes = [0; LONGEST].map(|_: u8| random.next() as u8);
        (layout, bytes, length(layout))
    };
    let points: Vec<(Numbers, [u8; LONGEST], usize)> = (0..MANY).map(point).collect();
    let (layout, bytes, length) = points[0];
    let refused = [
        (Numbers::default(), bytes, length),
        (random.groups(), bytes, 4),
        (layout, bytes, length - 1),
    ];
    let before = before.and_then(Before::decode_point).map(|jobs| {
        jobs.map(|job| {
            call_side(
                move |(layout, bytes, length), point| job(*layout, &bytes[..*length], point),
                points.clone(),
                [0.0; 3],
            )
        })
    });
    Case::calls(
        label("decode_point", "one point", "any layouts"),
        points,
        &refused,
        [0.0; 3],
        [
            |(layout, bytes, length), point| {
                library::lines::decode_point(*layout, &bytes[..*length], point)
            },
            |(layout, bytes, length), point| {
                plain::lines::decode_point(*layout, &bytes[..*length], point)
            },
        ],
    )?
    .beside(before)
}

fn encode_point(before: Option<&Before>) -> Result<Case, String> {
    let mut random = Random::new();
    let point = |_| {
        let layout = random.layout();
        let values = [0; 3].map(|_| random.value());
        (layout, values, length(layout))
    };
    let points: Vec<(Numbers, [f32; 3], usize)> = (0..MANY).map(point).collect();
    let (layout, values, length) = points[0];
    let refused = [
        (Numbers::default(), values, length),
        (random.groups(), values, 4),
        (layout, values, length - 1),
        (layout, [0.0, 0.0, f32::NAN], length),
    ];
    let before = before.and_then(Before::encode_point).map(|jobs| {
        jobs.map(|job| {
            call_side(
                move |(layout, values, length), (out, cuts): &mut ([u8; LONGEST], u32)| {
                    job(*layout, *values, &mut out[..*length], cuts)
                },
                points.clone(),
                ([0; LONGEST], NO_CUTS),
            )
        })
    });
    Case::calls(
        label("encode_point", "one point", "any layouts"),
        points,
        &refused,
        ([0; LONGEST], NO_CUTS),
        [
            |(layout, values, length), (out, cuts)| {
                library::lines::encode_point(*layout, *values, &mut out[..*length], cuts)
            },
            |(layout, values, length), (out, cuts)| {
                plain::lines::encode_point(*layout, *values, &mut out[..*length], cuts)
            },
        ],
    )?
    .beside(before)
}

fn setting(random: &mut Random) -> Setting {
    [
        1 + random.below(2),
        1 + random.below(3),
        random.depth(),
        random.below(3),
    ]
}

fn length([_, _, _, _, bytes, ..]: Numbers) -> usize {
    bytes.into()
}
