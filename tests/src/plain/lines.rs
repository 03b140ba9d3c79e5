//! Lines, bit by bit.

use reference::refusal::Refusal;

use crate::clamped::Clamped;
use crate::guarded::Guarded;
use crate::layouts::{bytes_a_point, is_grouped, DEPTH, MODEL, OFFSETS, RANGE};
use crate::library::{Layout, Quantize, Slot, CUTS, EMPTY_SLOT, FLOAT};
use crate::quantization::refused;

use super::layout::{is_of_points, is_valid};
use super::quantization::{all, divided, Count, Line};

/// The place among the bits of a point or a group of a bit of one of its codes, three a
/// point. Bit 0 is the lowest of the first byte.
pub type Place = fn(Layout, usize, usize) -> usize;

pub fn place(layout: Layout, code: usize, bit: usize) -> usize {
    if is_grouped(layout) {
        8 * BYTES_OF_CODES[code] + bit
    } else {
        usize::from(layout[OFFSETS + code]) + bit
    }
}

/// Which byte of a group has each code of its two points.
const BYTES_OF_CODES: [usize; 6] = [1, 0, 2, 3, 0, 2];

/// Some of the codes of a point or a group, by their places.
pub type Codes = fn(Layout) -> &'static [usize];

/// Those that are looked at: in a group, the first point's and the second's brightness.
pub fn looked_at(layout: Layout) -> &'static [usize] {
    match is_grouped(layout) {
        true => &[0, 1, 2, 3],
        false => &[0, 1, 2],
    }
}

/// The channel of a code, by its place.
pub type Channel = fn(Layout, usize) -> u8;

pub fn channel(_: Layout, code: usize) -> u8 {
    (code % 3) as u8
}

/// What is done with codes or floats of which points or groups are made.
#[derive(Clone, Copy)]
pub struct Making {
    pub place: Place,
    pub channel: Channel,
    /// Those that may be refused by 12 or 14, whose cuts are counted, and that are stored.
    pub refused: Codes,
    pub counted: Codes,
    pub stored: Codes,
}

pub const MAKING: Making = Making {
    place,
    channel,
    refused: looked_at,
    counted: looked_at,
    stored: looked_at,
};

/// Unpacks with the given places of bits.
pub fn unpacked(layout: Layout, packed: &[u8], codes: &mut Guarded<u16>, place: Place) -> i64 {
    if let Some(refusal) = reading_refusal(layout, packed.len(), codes.length()) {
        return refused(refusal);
    }
    load_fields(layout, packed, codes.output(), place);
    count(codes.length())
}

/// Packs with the given places of bits.
pub fn packed(layout: Layout, codes: &[u16], packed: &mut Guarded<u8>, place: Place) -> i64 {
    packed_by(layout, codes, packed, Making { place, ..MAKING })
}

/// Packs in the given way.
pub fn packed_by(layout: Layout, codes: &[u16], packed: &mut Guarded<u8>, making: Making) -> i64 {
    if let Some(refusal) = making_refusal(layout, packed.length(), codes.len()) {
        return refused(refusal);
    }
    let too_high = |code: u16| code >> layout[DEPTH] != 0;
    if chosen(layout, making.refused, codes).any(too_high) {
        return refused(Refusal::CodeTooHigh);
    }
    packed.output().fill(0);
    store(layout, codes, packed.output(), making);
    count(codes.len())
}

/// Decodes with the given line and division.
pub fn decoded(
    layout: Layout,
    packed: &[u8],
    values: &mut Guarded<u32>,
    line: Line,
    divide: fn(f32, f32) -> f32,
) -> i64 {
    decoded_by(layout, packed, values, (line, divide), (place, channel))
}

/// And with the given places of bits and channels.
pub fn decoded_by(
    layout: Layout,
    packed: &[u8],
    values: &mut Guarded<u32>,
    (line, divide): (Line, fn(f32, f32) -> f32),
    (place, channel): (Place, Channel),
) -> i64 {
    if let Some(refusal) = reading_refusal(layout, packed.len(), values.length()) {
        return refused(refusal);
    }
    let mut codes = vec![0; values.length()];
    load_fields(layout, packed, &mut codes, place);
    let places = (0..codes_each(layout)).cycle();
    for ((value, code), place) in values.output().iter_mut().zip(codes).zip(places) {
        let channel = channel(layout, place);
        let setting = [layout[MODEL], layout[RANGE], layout[DEPTH], channel];
        let mut slot = Slot::default();
        divided(setting, code, &mut slot, line, divide);
        *value = slot[FLOAT];
    }
    count(values.length())
}

/// Encodes with the given rule for a value.
pub fn encoded(
    layout: Layout,
    values: &[f32],
    packed: &mut Clamped<u8>,
    quantize: Quantize,
) -> i64 {
    counted(layout, values, packed, quantize, all)
}

/// And with the given rule for the number of cuts.
pub fn counted(
    layout: Layout,
    values: &[f32],
    packed: &mut Clamped<u8>,
    quantize: Quantize,
    count_cuts: Count,
) -> i64 {
    encoded_by(layout, values, packed, (quantize, count_cuts), MAKING)
}

/// And in the given way.
pub fn encoded_by(
    layout: Layout,
    values: &[f32],
    packed: &mut Clamped<u8>,
    (quantize, count_cuts): (Quantize, Count),
    making: Making,
) -> i64 {
    if let Some(refusal) = making_refusal(layout, packed.length(), values.len()) {
        return refused(refusal);
    }
    let (mut codes, mut cut) = (Vec::new(), Vec::new());
    for (&value, place) in values.iter().zip((0..codes_each(layout)).cycle()) {
        let channel = (making.channel)(layout, place);
        let setting = [layout[MODEL], layout[RANGE], layout[DEPTH], channel];
        let mut slot = EMPTY_SLOT;
        codes.push(quantize(setting, value, &mut slot));
        cut.push(slot[CUTS] != 0);
    }
    if let Some(refusal) = chosen(layout, making.refused, &codes).find(|&code| code < 0) {
        return refusal;
    }
    let cut: Vec<bool> = chosen(layout, making.counted, &cut).collect();
    packed.cuts[CUTS] = count_cuts(&cut) as u32;
    let codes: Vec<u16> = codes.iter().map(|&code| code as u16).collect();
    packed.output().fill(0);
    store(layout, &codes, packed.output(), making);
    count(values.len())
}

/// Encodes a point with the given rule for a value.
pub fn encoded_point(
    layout: Layout,
    values: [f32; 3],
    packed: &mut Clamped<u8>,
    quantize: Quantize,
) -> i64 {
    single(layout, || encoded(layout, &values, packed, quantize))
}

/// A point by the functions on lines. Groups have no single points.
pub fn single(layout: Layout, point: impl FnOnce() -> i64) -> i64 {
    match is_of_points(layout) {
        true => point(),
        false => refused(Refusal::Outside),
    }
}

/// Loads the bits of the fields.
pub fn load_fields(layout: Layout, packed: &[u8], codes: &mut [u16], place: Place) {
    let points = packed.chunks(bytes_a_point(layout));
    for (point, codes) in points.zip(codes.chunks_mut(codes_each(layout))) {
        for (number, code) in codes.iter_mut().enumerate() {
            *code = 0;
            for bit in 0..usize::from(layout[DEPTH]) {
                let place = place(layout, number, bit);
                *code |= u16::from(point[place / 8] >> (place % 8) & 1) << bit;
            }
        }
    }
}

/// Stores the bits of the fields and leaves all other bits as they are.
pub fn store_fields(layout: Layout, codes: &[u16], packed: &mut [u8], place: Place) {
    store(layout, codes, packed, Making { place, ..MAKING });
}

fn store(layout: Layout, codes: &[u16], packed: &mut [u8], making: Making) {
    let points = packed.chunks_mut(bytes_a_point(layout));
    for (point, codes) in points.zip(codes.chunks(codes_each(layout))) {
        for &number in (making.stored)(layout) {
            for bit in 0..usize::from(layout[DEPTH]) {
                let place = (making.place)(layout, number, bit);
                let byte = &mut point[place / 8];
                *byte &= !(1 << (place % 8));
                *byte |= ((codes[number] >> bit & 1) as u8) << (place % 8);
            }
        }
    }
}

/// Those of a line's elements that are chosen of each point or group.
fn chosen<T: Copy>(layout: Layout, codes: Codes, elements: &[T]) -> impl Iterator<Item = T> + '_ {
    let points = elements.chunks(codes_each(layout));
    points.flat_map(move |point| codes(layout).iter().map(|&number| point[number]))
}

/// The codes of a point or a group.
fn codes_each(layout: Layout) -> usize {
    match is_grouped(layout) {
        true => 6,
        false => 3,
    }
}

/// The refusal of a layout or of lengths where a line is made.
fn making_refusal(layout: Layout, packed_bytes: usize, elements: usize) -> Option<Refusal> {
    // Three, nine, fifteen elements and so on are of odd numbers of points.
    if is_valid(layout) && is_grouped(layout) && elements % 6 == 3 {
        return Some(Refusal::OddCount);
    }
    reading_refusal(layout, packed_bytes, elements)
}

/// The same where it is read.
fn reading_refusal(layout: Layout, packed_bytes: usize, elements: usize) -> Option<Refusal> {
    if !is_valid(layout) {
        return Some(Refusal::Outside);
    }
    let points = elements / codes_each(layout);
    let fit = elements <= 3 * 4096
        && elements == codes_each(layout) * points
        && packed_bytes == points * bytes_a_point(layout);
    (!fit).then_some(Refusal::Length)
}

fn count(elements: usize) -> i64 {
    elements as i64 / 3
}
