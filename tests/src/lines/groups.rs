//! Lines of groups: every group there is but for its second point, random lines of every
//! length, what is not looked at, and refusals that compete.

use crate::guarded::{Element, Outcome};
use crate::layouts::{self, elements_in, packed_length};
use crate::library::{Layout, Library, CUTS};
use crate::part::{part, Part};
use crate::plain::quantization::returned;
use crate::quantization::scale_of;
use crate::random::Random;
use crate::tally::{Flow, Tally};

use super::inputs::{self, Line};
use super::{
    compare_decode_line, compare_encode_line, compare_pack_line, compare_unpack_line,
    expected_decode_line, expected_encode_line, expected_pack_line, expected_unpack_line, refusals,
    MOST_POINTS,
};

mod examples;

/// The parts that try a library, the quick ones first. Wrong programs of groups are tried
/// with these alone, so that they are seen to fail.
pub const PARTS: &[Part] = &[
    part("groups, worked out by hand", examples::worked_out),
    part("groups, refused by hand", examples::refused_by_hand),
    part("groups, layouts outside", refusals::groups_outside),
    part("groups, refusals that compete", competing),
    part("groups, colour not looked at", not_looked_at),
    part("groups, short and long lines", some_lengths),
    part("groups, every even length", every_even_length),
];

/// The parts that go through a whole domain.
pub const WHOLE_PARTS: &[Part] = &[part("groups, every Cb, Cr and Y'", every_color)];

/// Lengths up to which all are tried, and lengths beyond.
const SHORT: usize = 70;
const LONG: [usize; 9] = [254, 255, 256, 257, 258, 1000, 2047, 2048, 4094];

/// What a second point's colour may be.
const ANY_VALUES: [u32; 8] = [
    0x7fc0_0000, // not-a-numbers
    0xff80_0001,
    0x7f80_0000, // infinities
    0xff80_0000,
    0x7f7f_ffff, // the largest finite floats
    0xff7f_ffff,
    0x4000_0000, // 2, which is cut
    0x0000_0000,
];
const ANY_CODES: [u16; 6] = [256, 257, 0x1000, 0x8000, u16::MAX, 0];

/// All pairs of Cb and Cr, with every Y' of both points beside some of them, decoded,
/// unpacked, encoded and packed as the reference does it. Then decoding and encoding, and
/// unpacking and packing, return the bytes; but in narrow range the codes that are never
/// made return as the nearer end, and are those that are cut. That asks the library alone.
fn every_color(library: &Library, tally: &mut Tally) -> Flow {
    for layout in layouts::groups_of_each_range() {
        let groups: Vec<[u8; 4]> = (0..=u16::MAX)
            .map(|pair| {
                let [cb, cr] = pair.to_le_bytes();
                // Every brightness meets every Cb and every Cr.
                [cb, cb.wrapping_add(cr), cr, cb.wrapping_sub(cr)]
            })
            .collect();
        for line in groups.chunks(MOST_POINTS / 2) {
            there_and_back(library, tally, layout, line.as_flattened())?;
        }
    }
    Flow::Continue(())
}

fn there_and_back(library: &Library, tally: &mut Tally, layout: Layout, packed: &[u8]) -> Flow {
    let elements = elements_in(layout, packed.len());
    compare_decode_line(library, tally, layout, packed, elements)?;
    compare_unpack_line(library, tally, layout, packed, elements)?;
    let values = Outcome::of(elements, |out| (library.decode_line)(layout, packed, out));
    let values: Vec<f32> = values
        .output
        .elements()
        .iter()
        .map(|&bits| f32::from_bits(bits))
        .collect();
    let codes = Outcome::of(elements, |out| (library.unpack_line)(layout, packed, out));
    let codes = codes.output.elements();
    compare_encode_line(library, tally, layout, &values, packed.len())?;
    compare_pack_line(library, tally, layout, codes, packed.len())?;

    // All channels have the same ends.
    let scale = scale_of([2, layout[layouts::RANGE], 8, 0]);
    let nearer: Vec<u8> = packed
        .iter()
        .map(|&code| returned(scale, code.into()) as u8)
        .collect();
    let moved = packed
        .iter()
        .zip(&nearer)
        .filter(|(one, other)| one != other);
    let encoded = Outcome::with_cuts(packed.len(), |out| {
        (library.encode_line)(layout, &values, out)
    });
    let mut must_be = Outcome::with_cuts(packed.len(), |out| {
        out.output().copy_from_slice(&nearer);
        elements as i64 / 3
    });
    must_be.cuts[CUTS] = moved.count() as u32;
    tally.compare(encoded == must_be, || {
        format!(
            "decode and encode {layout:?}, groups from {:?}: {}",
            &packed[..4],
            encoded.unlike(&must_be)
        )
    })?;
    let packed_again = Outcome::of(packed.len(), |out| (library.pack_line)(layout, codes, out));
    tally.compare(packed_again.output.elements() == packed, || {
        format!(
            "unpack and pack {layout:?}, groups from {:?}: the bytes differ",
            &packed[..4]
        )
    })
}

/// Random lines of every length up to some, of longer ones, and of the longest; those of
/// odd lengths with the bytes of the group that is begun, with half of them and without.
fn some_lengths(library: &Library, tally: &mut Tally) -> Flow {
    let mut random = Random::new();
    for layout in layouts::groups_of_each_range() {
        for points in (0..=SHORT)
            .chain(LONG)
            .chain([MOST_POINTS - 1, MOST_POINTS])
        {
            let line = inputs::line(layout, points, &mut random);
            compare_all(library, tally, layout, &line, line.packed.len())?;
            if points % 2 == 1 {
                compare_all(library, tally, layout, &line, line.packed.len() - 4)?;
                compare_all(library, tally, layout, &line, line.packed.len() - 2)?;
            }
        }
    }
    Flow::Continue(())
}

/// The beginnings of a random line, of every number of whole groups: each is made and read
/// as the whole is, as far as it goes. The reference makes and reads the whole, and tells
/// the cuts of each group alone.
fn every_even_length(library: &Library, tally: &mut Tally) -> Flow {
    let layout = layouts::group(2, 1);
    let line = inputs::line(layout, MOST_POINTS, &mut Random::new());
    let Line {
        packed,
        codes,
        values,
    } = &line;
    let of_codes = Outcome::of(packed.len(), |out| expected_pack_line(layout, codes, out));
    let of_values = Outcome::with_cuts(packed.len(), |out| {
        expected_encode_line(layout, values, out)
    });
    let unpacked = Outcome::of(codes.len(), |out| expected_unpack_line(layout, packed, out));
    let decoded = Outcome::of(values.len(), |out| {
        expected_decode_line(layout, packed, out)
    });
    let mut cuts = 0;
    for groups in 0..=MOST_POINTS / 2 {
        let (bytes, elements) = (4 * groups, 6 * groups);
        let outcome = Outcome::of(bytes, |out| {
            (library.pack_line)(layout, &codes[..elements], out)
        });
        begins(tally, "pack", outcome, groups, &of_codes, None)?;
        let outcome = Outcome::with_cuts(bytes, |out| {
            (library.encode_line)(layout, &values[..elements], out)
        });
        begins(tally, "encode", outcome, groups, &of_values, Some(cuts))?;
        let outcome = Outcome::of(elements, |out| {
            (library.unpack_line)(layout, &packed[..bytes], out)
        });
        begins(tally, "unpack", outcome, groups, &unpacked, None)?;
        let outcome = Outcome::of(elements, |out| {
            (library.decode_line)(layout, &packed[..bytes], out)
        });
        begins(tally, "decode", outcome, groups, &decoded, None)?;
        if let Some(group) = values[elements..].first_chunk::<6>() {
            let alone = Outcome::with_cuts(4, |out| expected_encode_line(layout, group, out));
            cuts += alone.cuts[CUTS];
        }
    }
    Flow::Continue(())
}

/// What is made of so many groups is the beginning of the whole, with so many cuts where
/// there may be any.
fn begins<T: Element>(
    tally: &mut Tally,
    how: &str,
    outcome: Outcome<T>,
    groups: usize,
    whole: &Outcome<T>,
    cuts: Option<u32>,
) -> Flow {
    let length = outcome.output.length();
    let mut must_be = Outcome::of(length, |out| {
        out.output()
            .copy_from_slice(&whole.output.elements()[..length]);
        2 * groups as i64
    });
    if let Some(cuts) = cuts {
        must_be.cuts[CUTS] = cuts;
    }
    tally.compare(outcome == must_be, || {
        format!("{how} {groups} groups: {}", outcome.unlike(&must_be))
    })
}

/// All four on a line, whose packed side has so many bytes.
fn compare_all(
    library: &Library,
    tally: &mut Tally,
    layout: Layout,
    line: &Line,
    packed_bytes: usize,
) -> Flow {
    let packed = &line.packed[..packed_bytes];
    compare_unpack_line(library, tally, layout, packed, line.codes.len())?;
    compare_decode_line(library, tally, layout, packed, line.values.len())?;
    compare_pack_line(library, tally, layout, &line.codes, packed_bytes)?;
    compare_encode_line(library, tally, layout, &line.values, packed_bytes)
}

/// Lines that differ in the colour of second points alone have the same answer, the same
/// bytes and the same cuts, whatever that colour is: in one second point, and in all. The
/// first comparison asks the library alone.
fn not_looked_at(library: &Library, tally: &mut Tally) -> Flow {
    let mut random = Random::new();
    for layout in layouts::groups() {
        for points in [2, 4, 10, 34] {
            let line = inputs::line(layout, points, &mut random);
            for group in [0, points / 4, points / 2 - 1] {
                for place in [6 * group + 4, 6 * group + 5] {
                    changed(library, tally, layout, &line, &[place])?;
                }
            }
            let all: Vec<usize> = (0..3 * points).filter(|place| place % 6 > 3).collect();
            changed(library, tally, layout, &line, &all)?;
        }
    }
    let line = inputs::line(layouts::group(1, 1), MOST_POINTS, &mut random);
    for place in [4, 3 * MOST_POINTS - 2, 3 * MOST_POINTS - 1] {
        changed(library, tally, layouts::group(1, 1), &line, &[place])?;
    }
    Flow::Continue(())
}

/// The line, and the same with other elements at these places.
fn changed(
    library: &Library,
    tally: &mut Tally,
    layout: Layout,
    line: &Line,
    places: &[usize],
) -> Flow {
    let length = packed_length(layout, line.codes.len() / 3);
    let encoded = |values: &[f32]| {
        Outcome::with_cuts(length, |out| (library.encode_line)(layout, values, out))
    };
    let packed = |codes: &[u16]| Outcome::of(length, |out| (library.pack_line)(layout, codes, out));
    let as_it_was = (encoded(&line.values), packed(&line.codes));
    for bits in ANY_VALUES {
        let mut values = line.values.clone();
        for &place in places {
            values[place] = f32::from_bits(bits);
        }
        let outcome = encoded(&values);
        tally.compare(outcome == as_it_was.0, || {
            format!(
                "encode {layout:?}, 0x{bits:08x} at {places:?}: {}",
                outcome.unlike(&as_it_was.0)
            )
        })?;
        compare_encode_line(library, tally, layout, &values, length)?;
    }
    for code in ANY_CODES {
        let mut codes = line.codes.clone();
        for &place in places {
            codes[place] = code;
        }
        let outcome = packed(&codes);
        tally.compare(outcome == as_it_was.1, || {
            format!(
                "pack {layout:?}, {code} at {places:?}: {}",
                outcome.unlike(&as_it_was.1)
            )
        })?;
        compare_pack_line(library, tally, layout, &codes, length)?;
    }
    Flow::Continue(())
}

/// All combinations of a layout, a number of elements, an output's length and an element,
/// each right or wrong: any two refusals, and any three.
fn competing(library: &Library, tally: &mut Tally) -> Flow {
    let group = layouts::group(3, 2);
    let mut outside = vec![group];
    for (place, number) in [
        (0, 1),
        (1, 5),
        (2, 4),
        (3, 10),
        (4, 3),
        (5, 8),
        (8, 0),
        (8, 2),
    ] {
        let mut layout = group;
        layout[place] = number;
        outside.push(layout);
    }
    let most = 3 * MOST_POINTS;
    let counts = [
        0,
        3,
        5,
        6,
        7,
        9,
        10,
        12,
        most - 3,
        most,
        most + 1,
        most + 3,
        most + 6,
    ];
    let mut random = Random::new();
    let line = inputs::line(group, MOST_POINTS + 4, &mut random);
    for layout in outside {
        for elements in counts {
            // As long as whole groups of the elements need, and else.
            let needed = elements / 6 * 4;
            let longer = [1, 2, 4].map(|more| needed + more);
            let shorter = [1, 2, 4].map(|less| needed.saturating_sub(less));
            for packed_bytes in longer.into_iter().chain(shorter).chain([needed]) {
                let packed = &line.packed[..packed_bytes];
                compare_unpack_line(library, tally, layout, packed, elements)?;
                compare_decode_line(library, tally, layout, packed, elements)?;
                let (codes, values) = (&line.codes[..elements], &line.values[..elements]);
                compare_pack_line(library, tally, layout, codes, packed_bytes)?;
                compare_encode_line(library, tally, layout, values, packed_bytes)?;
                for place in (0..elements.min(6)).chain(elements.saturating_sub(6)..elements) {
                    let (mut codes, mut values) = (codes.to_vec(), values.to_vec());
                    codes[place] = 256;
                    values[place] = f32::NAN;
                    compare_pack_line(library, tally, layout, &codes, packed_bytes)?;
                    compare_encode_line(library, tally, layout, &values, packed_bytes)?;
                }
            }
        }
    }
    Flow::Continue(())
}
