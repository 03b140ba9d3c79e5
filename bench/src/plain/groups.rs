//! Lines of groups in plain Rust: a loop of its own for each job, a group at a time. The
//! layout and the lengths are looked at once, and codes and floats are checked in a pass
//! of their own without an early exit. Of a group's second point only the brightness is
//! looked at.

use super::layout::{valid_groups, Numbers, Scale, MOST_POINTS};
use super::lines::{code, magnitude, value, INFINITY};
use super::refusal::{CODE_TOO_HIGH, LENGTH, NOT_A_NUMBER, ODD_COUNT, OUTSIDE};

pub fn unpack_line(layout: Numbers, packed: &[u8], codes: &mut [u16]) -> i64 {
    if !valid_groups(layout) {
        return OUTSIDE;
    }
    let Some(count) = count(packed.len(), codes.len()) else {
        return LENGTH;
    };
    for (group, codes) in packed.chunks_exact(4).zip(codes.chunks_exact_mut(6)) {
        let [cb, first, cr, second] = [group[0], group[1], group[2], group[3]].map(u16::from);
        codes.copy_from_slice(&[first, cb, cr, second, cb, cr]);
    }
    count as i64
}

pub fn pack_line(layout: Numbers, codes: &[u16], packed: &mut [u8]) -> i64 {
    if !valid_groups(layout) {
        return OUTSIDE;
    }
    if odd(codes.len()) {
        return ODD_COUNT;
    }
    let Some(count) = count(packed.len(), codes.len()) else {
        return LENGTH;
    };
    let all_bits = codes.chunks_exact(6).fold(0, |bits, codes| {
        bits | codes[0] | codes[1] | codes[2] | codes[3]
    });
    if all_bits > 255 {
        return CODE_TOO_HIGH;
    }
    for (group, codes) in packed.chunks_exact_mut(4).zip(codes.chunks_exact(6)) {
        let bytes = [codes[1], codes[0], codes[2], codes[3]].map(|code| code as u8);
        group.copy_from_slice(&bytes);
    }
    count as i64
}

pub fn decode_line(layout: Numbers, packed: &[u8], values: &mut [f32]) -> i64 {
    if !valid_groups(layout) {
        return OUTSIDE;
    }
    let Some(count) = count(packed.len(), values.len()) else {
        return LENGTH;
    };
    let [brightness, difference] = scales(layout);
    for (group, values) in packed.chunks_exact(4).zip(values.chunks_exact_mut(6)) {
        let cb = value(difference, group[0].into());
        let cr = value(difference, group[2].into());
        values[0] = value(brightness, group[1].into());
        values[1] = cb;
        values[2] = cr;
        values[3] = value(brightness, group[3].into());
        values[4] = cb;
        values[5] = cr;
    }
    count as i64
}

pub fn encode_line(layout: Numbers, values: &[f32], packed: &mut [u8], cuts: &mut u32) -> i64 {
    if !valid_groups(layout) {
        return OUTSIDE;
    }
    if odd(values.len()) {
        return ODD_COUNT;
    }
    let Some(count) = count(packed.len(), values.len()) else {
        return LENGTH;
    };
    let not_a_number = values.chunks_exact(6).fold(false, |found, values| {
        let looked_at = [values[0], values[1], values[2], values[3]];
        let not_a_number = looked_at.map(|value| magnitude(value) > INFINITY);
        found | not_a_number[0] | not_a_number[1] | not_a_number[2] | not_a_number[3]
    });
    if not_a_number {
        return NOT_A_NUMBER;
    }
    let [brightness, difference] = scales(layout);
    *cuts = 0;
    for (group, values) in packed.chunks_exact_mut(4).zip(values.chunks_exact(6)) {
        let (first, first_cut) = code(brightness, values[0]);
        let (cb, cb_cut) = code(difference, values[1]);
        let (cr, cr_cut) = code(difference, values[2]);
        let (second, second_cut) = code(brightness, values[3]);
        group.copy_from_slice(&[cb, first, cr, second].map(|code| code as u8));
        let cut = [first_cut, cb_cut, cr_cut, second_cut].map(u32::from);
        *cuts += cut[0] + cut[1] + cut[2] + cut[3];
    }
    count as i64
}

/// Whether these are whole points, of an odd count.
fn odd(elements: usize) -> bool {
    elements % 6 == 3
}

/// The count of points, if the two lengths of a line fit together.
fn count(packed_bytes: usize, elements: usize) -> Option<usize> {
    let count = packed_bytes / 4 * 2;
    let fit = packed_bytes == 2 * count && elements == 3 * count;
    (fit && count <= MOST_POINTS).then_some(count)
}

/// Of brightness and of differences.
fn scales([_, _, range, depth, ..]: Numbers) -> [Scale; 2] {
    [false, true].map(|difference| Scale::new(range, depth, difference))
}
