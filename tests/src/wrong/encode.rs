//! Mistakes in encoding a line or a point.

use reference::lines;
use reference::refusal::Refusal;

use crate::clamped::{counted, Clamped};
use crate::layouts::{bytes_a_point, packed_length, LEGACY, OFFSETS, PRIMARIES, RANGE};
use crate::library::{EncodeLine, EncodePoint, Library};
use crate::lines::{answer, expected_encode_line, expected_encode_point};
use crate::plain::lines::{encoded, encoded_point, place, store_fields};
use crate::plain::quantization::{clamped, line, numbered, right_number};
use crate::quantization::refused;

use super::ends::{brightness_alone, infinities_to_all_codes, rounded_after_the_clamp};
use super::points::{keeping_clamped_from, older_as_full, together};
use super::{Wrong, REFERENCE};

pub const WRONG: &[Wrong] = &[
    // Which points.
    encodes("nothing encoded", |layout, values, out| {
        keeping_clamped_from(0, out, |out| expected_encode_line(layout, values, out))
    }),
    encodes("only the first point encoded", |layout, values, out| {
        keeping_clamped_from(bytes_a_point(layout), out, |out| {
            expected_encode_line(layout, values, out)
        })
    }),
    // Which bits.
    encodes("big-endian points encoded", |layout, values, out| {
        let count = expected_encode_line(layout, values, out);
        if count > 0 {
            let points = out.output().chunks_mut(bytes_a_point(layout));
            points.for_each(<[u8]>::reverse);
        }
        count
    }),
    encodes(
        "a field's offset taken for its neighbour's, encoding",
        |layout, values, out| {
            let mut exchanged = layout;
            exchanged.swap(OFFSETS + 1, OFFSETS + 2);
            expected_encode_line(exchanged, values, out)
        },
    ),
    encodes("unused bits kept, encoding", |layout, values, out| {
        let before = out.made.clone();
        let count = expected_encode_line(layout, values, out);
        if count > 0 {
            let mut codes = vec![0; values.len()];
            let unpacked = lines::unpack_line(layout, out.output(), &mut codes);
            out.made = before;
            store_fields(layout, &codes, out.output(), place);
            return answer(unpacked);
        }
        count
    }),
    // Values.
    encodes("a rounded product", |layout, values, out| {
        encoded(layout, values, out, |setting, value, cuts| {
            numbered(setting, value, cuts, |scale, v| {
                let (step, base) = line(scale);
                f64::from((v * step as f32 + base as f32 + 0.5).floor())
            })
        })
    }),
    encodes(
        "full range for the older, encoding",
        |layout, values, out| expected_encode_line(older_as_full(layout), values, out),
    ),
    encodes(
        "narrow brightness alone clamped, encoding",
        |layout, values, out| {
            encoded(layout, values, out, |setting, value, cuts| {
                clamped(setting, value, cuts, right_number, brightness_alone)
            })
        },
    ),
    encodes_points(
        "narrow brightness alone clamped, a point",
        |layout, values, out| {
            encoded_point(layout, values, out, |setting, value, cuts| {
                clamped(setting, value, cuts, right_number, brightness_alone)
            })
        },
    ),
    encodes(
        "narrow infinities to the ends of all codes, encoding",
        |layout, values, out| encoded(layout, values, out, infinities_to_all_codes),
    ),
    encodes_points(
        "narrow infinities to the ends of all codes, a point",
        |layout, values, out| encoded_point(layout, values, out, infinities_to_all_codes),
    ),
    encodes(
        "rounded after the clamp, encoding",
        |layout, values, out| encoded(layout, values, out, rounded_after_the_clamp),
    ),
    encodes_points("rounded after the clamp, a point", |layout, values, out| {
        encoded_point(layout, values, out, rounded_after_the_clamp)
    }),
    encodes(
        "all channels on the scale of channel 0",
        |layout, values, out| {
            encoded(layout, values, out, |setting, value, cuts| {
                let [model, range, depth, _] = setting;
                (REFERENCE.quantize)([model, range, depth, 0], value, cuts)
            })
        },
    ),
    encodes("infinities refused", |layout, values, out| {
        let values: Vec<f32> = values
            .iter()
            .map(|&value| match value.is_infinite() {
                true => f32::NAN,
                false => value,
            })
            .collect();
        expected_encode_line(layout, &values, out)
    }),
    encodes_points(
        "a point's values in another order",
        |layout, [first, second, third], out| {
            expected_encode_point(layout, [third, second, first], out)
        },
    ),
    // Counts.
    encodes(
        "an empty line refused",
        |layout, values, out| match expected_encode_line(layout, values, &mut out.clone()) {
            0 => refused(Refusal::Length),
            _ => expected_encode_line(layout, values, out),
        },
    ),
    encodes_points("0 answered for a point", |layout, values, out| {
        expected_encode_point(layout, values, out).min(0)
    }),
    // Refusal 13.
    encodes("4,097 points encoded", |layout, values, out| {
        let [most, one_more] = [4096, 4097].map(|points| packed_length(layout, points));
        match expected_encode_line(layout, values, out) {
            -13 if values.len() == 3 * 4097 && out.length() == one_more => {
                let bits = bits(values);
                let (packed, last) = out.made.output().split_at_mut(most);
                let pieces = [(&bits[..3 * 4096], packed), (&bits[3 * 4096..], last)];
                let encode = |(bits, out): (&[u32], _)| lines::encode_line(layout, bits, out);
                together(pieces.into_iter().map(encode), &mut out.cuts)
            }
            answer => answer,
        }
    }),
    encodes(
        "a too long output accepted, encoding",
        |layout, values, out| {
            let needed = packed_length(layout, values.len() / 3);
            let length = needed.min(out.length());
            let output = &mut out.made.output()[..length];
            counted(
                lines::encode_line(layout, &bits(values), output),
                &mut out.cuts,
            )
        },
    ),
    encodes(
        "a too short output filled",
        |layout, values, out| match expected_encode_line(layout, values, out) {
            -13 => {
                let mut longer = Clamped::new(packed_length(layout, values.len() / 3));
                let count = expected_encode_line(layout, values, &mut longer);
                let length = longer.length().min(out.length());
                out.output()[..length].copy_from_slice(&longer.output()[..length]);
                out.cuts = longer.cuts;
                count
            }
            answer => answer,
        },
    ),
    encodes_points(
        "an empty output of a point accepted",
        |layout, values, out| match expected_encode_point(layout, values, out) {
            -13 if out.length() == 0 => 0,
            answer => answer,
        },
    ),
    encodes_points("an output of two points filled", |layout, values, out| {
        let twice = [values, values].concat();
        match expected_encode_point(layout, values, out) {
            -13 => expected_encode_line(layout, &twice, out),
            answer => answer,
        }
    }),
    // Refusals 12 and 14.
    encodes(
        "12 found after the first store",
        |layout, values, out| match expected_encode_line(layout, values, out) {
            -12 => {
                let points = out.made.output().chunks_mut(bytes_a_point(layout));
                let bits = bits(values);
                let pieces = points
                    .zip(bits.chunks(3))
                    .map(|(point, bits)| lines::encode_line(layout, bits, point));
                together(pieces, &mut out.cuts)
            }
            answer => answer,
        },
    ),
    encodes_points(
        "12 found after a point is cleared",
        |layout, values, out| match expected_encode_point(layout, values, out) {
            -12 => {
                out.output().fill(0);
                refused(Refusal::NotANumber)
            }
            answer => answer,
        },
    ),
    encodes("only the first point looked at", |layout, values, out| {
        let values: Vec<f32> = (0..)
            .zip(values)
            .map(|(place, &value)| match place {
                3.. if value.is_nan() => 0.0,
                _ => value,
            })
            .collect();
        expected_encode_line(layout, &values, out)
    }),
    encodes("signalling not-a-number encoded", |layout, values, out| {
        let values: Vec<f32> = values
            .iter()
            .map(
                |&value| match value.is_nan() && value.to_bits() >> 22 & 1 == 0 {
                    true => 0.0,
                    false => value,
                },
            )
            .collect();
        expected_encode_line(layout, &values, out)
    }),
    // The order of refusals.
    encodes_points("13 before 9, a point", |layout, values, out| {
        match out.length() == bytes_a_point(layout) {
            true => expected_encode_point(layout, values, out),
            false => refused(Refusal::Length),
        }
    }),
    encodes(
        "12 before 13",
        |layout, values, out| match expected_encode_line(layout, values, out) {
            -13 if values.iter().any(|value| value.is_nan()) => refused(Refusal::NotANumber),
            answer => answer,
        },
    ),
    encodes_points(
        "12 before 13, a point",
        |layout, values, out| match expected_encode_point(layout, values, out) {
            -13 if values.iter().any(|value| value.is_nan()) => refused(Refusal::NotANumber),
            answer => answer,
        },
    ),
    encodes("12 before 9", |layout, values, out| {
        match values.iter().any(|value| value.is_nan()) {
            true => refused(Refusal::NotANumber),
            false => expected_encode_line(layout, values, out),
        }
    }),
    // Layouts.
    encodes("primaries not looked at", |layout, values, out| {
        let mut changed = layout;
        changed[PRIMARIES] = 1;
        expected_encode_line(changed, values, out)
    }),
    encodes(
        "range 3 refused, encoding",
        |layout, values, out| match layout[RANGE] {
            LEGACY => refused(Refusal::Outside),
            _ => expected_encode_line(layout, values, out),
        },
    ),
    encodes("everything refused", |_, _, _| refused(Refusal::Outside)),
    encodes_points("every point refused", |_, _, _| refused(Refusal::Outside)),
];

pub const fn encodes(mistake: &'static str, encode_line: EncodeLine) -> Wrong {
    let library = Library {
        encode_line,
        ..REFERENCE
    };
    (mistake, library)
}

pub const fn encodes_points(mistake: &'static str, encode_point: EncodePoint) -> Wrong {
    let library = Library {
        encode_point,
        ..REFERENCE
    };
    (mistake, library)
}

fn bits(values: &[f32]) -> Vec<u32> {
    values.iter().map(|value| value.to_bits()).collect()
}
