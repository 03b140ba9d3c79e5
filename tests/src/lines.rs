//! Lines of points: one comparison of each function with the reference, and the
//! parts that choose what to compare.

use reference::lines;
use reference::refusal::Refusal;

use crate::clamped::{counted, Clamped};
use crate::guarded::{Guarded, Outcome};
use crate::library::{Layout, Library};
use crate::part::{part, Part};
use crate::quantization::refused;
use crate::tally::{Flow, Tally};

mod cuts;
mod examples;
pub mod groups;
pub mod inputs;
mod lengths;
mod refusals;
pub mod rising;
mod shapes;
mod values;

/// The parts that try a library, the quick ones first: most wrong programs are
/// caught by them.
pub const PARTS: &[Part] = &[
    part("lines, worked out by hand", examples::worked_out),
    part("unpack and pack, there and back", shapes::there_and_back),
    part(
        "decode and encode, there and back",
        shapes::decoded_and_back,
    ),
    part("lines, short lengths", lengths::short_lines),
    part("decode a point, lengths", lengths::decoded_points),
    part("encode a point, lengths", lengths::points),
    part("encode, the ends of every scale", values::ends),
    part("lines, every code", values::every_code),
    part("every code, there and back", shapes::every_code_back),
    part("pack, greatest codes and above", values::codes),
    part("encode, not-a-numbers", values::not_a_numbers),
    part("encode, ties and exponents", values::ties_and_exponents),
    part("lines, layouts outside", refusals::layouts_outside),
    part("lines, beyond 4,096 points", lengths::too_many_points),
    part("encode, infinities", values::infinities),
    part("encode, cuts in each place", cuts::short_lines),
    part("encode, cuts in long lines", cuts::long_lines),
    part("encode, cuts value by value", cuts::by_single_values),
    part("lines, 4,096 points", shapes::long_lines),
    part("lines, lengths around 4,096", lengths::long_lines),
    part("lines, every layout", shapes::every_layout),
    rising::PART,
];

const MOST_POINTS: usize = 4096;

pub fn expected_unpack_line(layout: Layout, packed: &[u8], codes: &mut Guarded<u16>) -> i64 {
    answer(lines::unpack_line(layout, packed, codes.output()))
}

pub fn expected_pack_line(layout: Layout, codes: &[u16], packed: &mut Guarded<u8>) -> i64 {
    answer(lines::pack_line(layout, codes, packed.output()))
}

pub fn expected_decode_line(layout: Layout, packed: &[u8], values: &mut Guarded<u32>) -> i64 {
    answer(lines::decode_line(layout, packed, values.output()))
}

pub fn expected_decode_point(layout: Layout, bytes: &[u8], point: &mut Guarded<u32>) -> i64 {
    match lines::decode_point(layout, bytes) {
        Ok(values) => {
            point.output().copy_from_slice(&values);
            1
        }
        Err(refusal) => refused(refusal),
    }
}

pub fn expected_encode_line(layout: Layout, values: &[f32], packed: &mut Clamped<u8>) -> i64 {
    let bits: Vec<u32> = values.iter().map(|value| value.to_bits()).collect();
    let counts = lines::encode_line(layout, &bits, packed.output());
    counted(counts, &mut packed.cuts)
}

pub fn expected_encode_point(layout: Layout, values: [f32; 3], packed: &mut Clamped<u8>) -> i64 {
    let bits = values.map(f32::to_bits);
    let counts = lines::encode_point(layout, bits, packed.output());
    counted(counts, &mut packed.cuts)
}

/// A count or refusal as the C interface answers it.
pub fn answer(result: Result<usize, Refusal>) -> i64 {
    match result {
        Ok(count) => count as i64,
        Err(refusal) => refused(refusal),
    }
}

fn compare_unpack_line(
    library: &Library,
    tally: &mut Tally,
    layout: Layout,
    packed: &[u8],
    length: usize,
) -> Flow {
    let outcome = Outcome::of(length, |out| (library.unpack_line)(layout, packed, out));
    let expected = Outcome::of(length, |out| expected_unpack_line(layout, packed, out));
    tally.compare(outcome == expected, || {
        format!(
            "unpack {layout:?}, {} bytes to {length} codes, {:x?}: {}",
            packed.len(),
            start(packed),
            outcome.unlike(&expected)
        )
    })
}

fn compare_pack_line(
    library: &Library,
    tally: &mut Tally,
    layout: Layout,
    codes: &[u16],
    length: usize,
) -> Flow {
    let outcome = Outcome::of(length, |out| (library.pack_line)(layout, codes, out));
    let expected = Outcome::of(length, |out| expected_pack_line(layout, codes, out));
    tally.compare(outcome == expected, || {
        format!(
            "pack {layout:?}, {} codes to {length} bytes, {:x?}: {}",
            codes.len(),
            start(codes),
            outcome.unlike(&expected)
        )
    })
}

fn compare_decode_line(
    library: &Library,
    tally: &mut Tally,
    layout: Layout,
    packed: &[u8],
    length: usize,
) -> Flow {
    let outcome = Outcome::of(length, |out| (library.decode_line)(layout, packed, out));
    let expected = Outcome::of(length, |out| expected_decode_line(layout, packed, out));
    tally.compare(outcome == expected, || {
        format!(
            "decode {layout:?}, {} bytes to {length} floats, {:x?}: {}",
            packed.len(),
            start(packed),
            outcome.unlike(&expected)
        )
    })
}

fn compare_decode_point(
    library: &Library,
    tally: &mut Tally,
    layout: Layout,
    bytes: &[u8],
) -> Flow {
    let outcome = Outcome::of(3, |out| (library.decode_point)(layout, bytes, out));
    let expected = Outcome::of(3, |out| expected_decode_point(layout, bytes, out));
    tally.compare(outcome == expected, || {
        format!(
            "decode a point {layout:?}, {} bytes, {:x?}: {}",
            bytes.len(),
            start(bytes),
            outcome.unlike(&expected)
        )
    })
}

fn compare_encode_line(
    library: &Library,
    tally: &mut Tally,
    layout: Layout,
    values: &[f32],
    length: usize,
) -> Flow {
    let outcome = Outcome::with_cuts(length, |out| (library.encode_line)(layout, values, out));
    let expected = Outcome::with_cuts(length, |out| expected_encode_line(layout, values, out));
    tally.compare(outcome == expected, || {
        format!(
            "encode {layout:?}, {} floats to {length} bytes, {:?}: {}",
            values.len(),
            start(values),
            outcome.unlike(&expected)
        )
    })
}

fn compare_encode_point(
    library: &Library,
    tally: &mut Tally,
    layout: Layout,
    values: [f32; 3],
    length: usize,
) -> Flow {
    let outcome = Outcome::with_cuts(length, |out| (library.encode_point)(layout, values, out));
    let expected = Outcome::with_cuts(length, |out| expected_encode_point(layout, values, out));
    tally.compare(outcome == expected, || {
        format!(
            "encode a point {layout:?}, {values:?} to {length} bytes: {}",
            outcome.unlike(&expected)
        )
    })
}

/// As many elements as a description shows.
fn start<T>(elements: &[T]) -> &[T] {
    &elements[..elements.len().min(12)]
}
