//! Lines and points in plain Rust, of the same shape as the library: the layout and
//! the lengths are looked at once, and codes and floats are checked in a pass of
//! their own without an early exit. Codes are read from the bytes of their fields
//! alone. For packing and encoding each size of point has its own loop. Groups have loops
//! of their own in groups.rs.

use super::fields::Field;
use super::groups;
use super::layout::{grouped, Layout, Numbers, Scale};
use super::refusal::{CODE_TOO_HIGH, LENGTH, NOT_A_NUMBER, OUTSIDE};

pub const INFINITY: u32 = 255 << 23;

pub fn unpack_line(layout: Numbers, packed: &[u8], codes: &mut [u16]) -> i64 {
    if grouped(layout) {
        return groups::unpack_line(layout, packed, codes);
    }
    let Some(layout) = Layout::new(layout) else {
        return OUTSIDE;
    };
    let Some(count) = layout.count(packed.len(), codes.len()) else {
        return LENGTH;
    };
    read(layout, packed, codes, |_, code| code as u16);
    count as i64
}

pub fn pack_line(layout: Numbers, codes: &[u16], packed: &mut [u8]) -> i64 {
    if grouped(layout) {
        return groups::pack_line(layout, codes, packed);
    }
    let Some(layout) = Layout::new(layout) else {
        return OUTSIDE;
    };
    let Some(count) = layout.count(packed.len(), codes.len()) else {
        return LENGTH;
    };
    let all_bits = codes.iter().fold(0, |bits, code| bits | code);
    if all_bits >> layout.depth != 0 {
        return CODE_TOO_HIGH;
    }
    match layout.bytes {
        3 => pack::<3>(layout, codes, packed),
        4 => pack::<4>(layout, codes, packed),
        5 => pack::<5>(layout, codes, packed),
        6 => pack::<6>(layout, codes, packed),
        7 => pack::<7>(layout, codes, packed),
        _ => pack::<8>(layout, codes, packed),
    }
    count as i64
}

pub fn decode_line(layout: Numbers, packed: &[u8], values: &mut [f32]) -> i64 {
    if grouped(layout) {
        return groups::decode_line(layout, packed, values);
    }
    let Some(layout) = Layout::new(layout) else {
        return OUTSIDE;
    };
    let Some(count) = layout.count(packed.len(), values.len()) else {
        return LENGTH;
    };
    decode_all(layout, packed, values);
    count as i64
}

pub fn encode_line(layout: Numbers, values: &[f32], packed: &mut [u8], cuts: &mut u32) -> i64 {
    if grouped(layout) {
        return groups::encode_line(layout, values, packed, cuts);
    }
    let Some(layout) = Layout::new(layout) else {
        return OUTSIDE;
    };
    let Some(count) = layout.count(packed.len(), values.len()) else {
        return LENGTH;
    };
    let not_a_number = values
        .iter()
        .fold(false, |found, value| found | (magnitude(*value) > INFINITY));
    if not_a_number {
        return NOT_A_NUMBER;
    }
    *cuts = encode_all(layout, values, packed);
    count as i64
}

/// As a line of one point is.
pub fn decode_point(layout: Numbers, packed: &[u8], point: &mut [f32; 3]) -> i64 {
    let Some(layout) = Layout::new(layout) else {
        return OUTSIDE;
    };
    if packed.len() != layout.bytes {
        return LENGTH;
    }
    decode_all(layout, packed, point);
    1
}

/// As a line of one point is.
pub fn encode_point(layout: Numbers, point: [f32; 3], packed: &mut [u8], cuts: &mut u32) -> i64 {
    let Some(layout) = Layout::new(layout) else {
        return OUTSIDE;
    };
    if packed.len() != layout.bytes {
        return LENGTH;
    }
    if point.iter().any(|value| value.is_nan()) {
        return NOT_A_NUMBER;
    }
    *cuts = encode_all(layout, &point, packed);
    1
}

fn decode_all(layout: Layout, packed: &[u8], values: &mut [f32]) {
    let scales = layout.scales;
    read(layout, packed, values, |channel, code| {
        value(scales[channel], code)
    });
}

/// The number of cuts.
fn encode_all(layout: Layout, values: &[f32], packed: &mut [u8]) -> u32 {
    match layout.bytes {
        3 => encode::<3>(layout, values, packed),
        4 => encode::<4>(layout, values, packed),
        5 => encode::<5>(layout, values, packed),
        6 => encode::<6>(layout, values, packed),
        7 => encode::<7>(layout, values, packed),
        _ => encode::<8>(layout, values, packed),
    }
}

/// Makes something of every code: in one pass where the fields of the three channels
/// have the same count of bytes, else in a pass for each channel.
fn read<O>(layout: Layout, packed: &[u8], out: &mut [O], made: impl Fn(usize, u32) -> O) {
    let [first, second, third] = [layout.field(0), layout.field(1), layout.field(2)];
    if first.count == second.count && first.count == third.count {
        let fields = [(0, first), (1, second), (2, third)];
        read_channels(layout, fields, packed, out, made);
    } else {
        for (channel, field) in [first, second, third].into_iter().enumerate() {
            read_channels(layout, [(channel, field)], packed, out, &made);
        }
    }
}

/// Channels whose fields have the same count of bytes.
fn read_channels<const CHANNELS: usize, O>(
    layout: Layout,
    fields: [(usize, Field); CHANNELS],
    packed: &[u8],
    out: &mut [O],
    made: impl Fn(usize, u32) -> O,
) {
    // Not `layout.bytes`, nor with `div_ceil`, which comes to the same: a bare number
    // the compiler may take for 1, and leave the true step to a loop that does one
    // point at a time.
    let step = layout.bytes / 2 + (layout.bytes + 1) / 2;
    match fields[0].1.count {
        1 => read_fields::<1, CHANNELS, O>(step, fields, packed, out, made),
        2 => read_fields::<2, CHANNELS, O>(step, fields, packed, out, made),
        _ => read_fields::<3, CHANNELS, O>(step, fields, packed, out, made),
    }
}

fn read_fields<const BYTES: usize, const CHANNELS: usize, O>(
    step: usize,
    fields: [(usize, Field); CHANNELS],
    packed: &[u8],
    out: &mut [O],
    made: impl Fn(usize, u32) -> O,
) {
    // So that no place is looked at again in the loop.
    for (channel, field) in fields {
        assert!(channel < 3 && field.first < 8 && field.first + BYTES <= step);
    }
    for (point, out) in packed.chunks_exact(step).zip(out.chunks_exact_mut(3)) {
        for &(channel, field) in &fields {
            let bytes = &point[field.first..field.first + BYTES];
            out[channel] = made(channel, field.code(bytes));
        }
    }
}

fn pack<const BYTES: usize>(layout: Layout, codes: &[u16], packed: &mut [u8]) {
    let [first, second, third] = layout.offsets;
    for (bytes, codes) in packed.chunks_exact_mut(BYTES).zip(codes.chunks_exact(3)) {
        let point = u64::from(codes[0]) << first
            | u64::from(codes[1]) << second
            | u64::from(codes[2]) << third;
        store::<BYTES>(bytes, point);
    }
}

/// The float of a code: one division of whole numbers that floats hold.
pub fn value(scale: Scale, code: u32) -> f32 {
    (code as i32 - scale.base as i32) as f32 / scale.span as f32
}

fn encode<const BYTES: usize>(layout: Layout, values: &[f32], packed: &mut [u8]) -> u32 {
    let [first, second, third] = layout.offsets;
    let mut cuts = 0;
    for (bytes, values) in packed.chunks_exact_mut(BYTES).zip(values.chunks_exact(3)) {
        let (x, x_cut) = code(layout.scales[0], values[0]);
        let (y, y_cut) = code(layout.scales[1], values[1]);
        let (z, z_cut) = code(layout.scales[2], values[2]);
        store::<BYTES>(bytes, x << first | y << second | z << third);
        cuts += u32::from(x_cut) + u32::from(y_cut) + u32::from(z_cut);
    }
    cuts
}

/// The code of a float that is a number: floor(span * v + base + 1/2), clamped, and
/// whether it was cut: whether that floor is under the bottom or above the top. An f64
/// holds the product. In full range a half under zero is rounded down; but of those only
/// -1/2 would not be cut here, and no float is that.
pub fn code(scale: Scale, value: f32) -> (u64, bool) {
    let number = f64::from(value) * scale.span as f64 + (scale.base as f64 + 0.5);
    let (bottom, top) = (scale.bottom as f64, scale.top as f64);
    let code = number.clamp(bottom, top) as i32 as u64;
    (code, !(bottom..top + 1.0).contains(&number))
}

/// The bits of a float without its sign.
pub fn magnitude(value: f32) -> u32 {
    value.to_bits() & !(1 << 31)
}

fn store<const BYTES: usize>(bytes: &mut [u8], point: u64) {
    bytes[..BYTES].copy_from_slice(&point.to_le_bytes()[..BYTES]);
}
