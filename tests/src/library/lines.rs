//! The functions of the C interface on lines and points.

use imurraqi::ffi;

use crate::clamped::Clamped;
use crate::guarded::Guarded;

use super::entry::Entry;
use super::memory::Memory;
use super::{whole, Layout};

pub fn unpack_line<M: Memory>(layout: Layout, packed: &[u8], codes: &mut Guarded<u16>) -> i64 {
    let mut memory = M::of(Entry::UnpackLine);
    // SAFETY: the pointers are to as many elements as the lengths say, nine for
    // the layout, and nothing else uses the output.
    let answer = unsafe {
        ffi::imurraqi_unpack_line(
            memory.input(&layout).cast(),
            memory.input(packed),
            packed.len(),
            memory.output(codes.whole()),
            codes.length(),
        )
    };
    memory.answered(answer)
}

pub fn pack_line<M: Memory>(layout: Layout, codes: &[u16], packed: &mut Guarded<u8>) -> i64 {
    let mut memory = M::of(Entry::PackLine);
    // SAFETY: as for `unpack_line`.
    let answer = unsafe {
        ffi::imurraqi_pack_line(
            memory.input(&layout).cast(),
            memory.input(codes),
            codes.len(),
            memory.output(packed.whole()),
            packed.length(),
        )
    };
    memory.answered(answer)
}

pub fn decode_line<M: Memory>(layout: Layout, packed: &[u8], values: &mut Guarded<u32>) -> i64 {
    let mut memory = M::of(Entry::DecodeLine);
    // SAFETY: as for `unpack_line`; a float is as large as its bits.
    let answer = unsafe {
        ffi::imurraqi_decode_line(
            memory.input(&layout).cast(),
            memory.input(packed),
            packed.len(),
            memory.output(values.whole()).cast(),
            values.length(),
        )
    };
    memory.answered(answer)
}

pub fn decode_point<M: Memory>(layout: Layout, bytes: &[u8], point: &mut Guarded<u32>) -> i64 {
    assert_eq!(point.length(), 3);
    let mut memory = M::of(Entry::DecodePoint);
    // SAFETY: as for `decode_line`; the output has the length of a point.
    let answer = unsafe {
        ffi::imurraqi_decode_point(
            memory.input(&layout).cast(),
            memory.input(bytes),
            bytes.len(),
            memory.output(point.whole()).cast(),
        )
    };
    memory.answered(answer)
}

pub fn encode_line<M: Memory>(layout: Layout, values: &[f32], packed: &mut Clamped<u8>) -> i64 {
    let mut memory = M::of(Entry::EncodeLine);
    // SAFETY: as for `unpack_line`.
    let answer = unsafe {
        ffi::imurraqi_encode_line(
            memory.input(&layout).cast(),
            memory.input(values),
            values.len(),
            memory.output(packed.whole()),
            packed.length(),
            memory.output(whole(&mut packed.cuts)),
        )
    };
    memory.answered(answer)
}

pub fn encode_point<M: Memory>(layout: Layout, values: [f32; 3], packed: &mut Clamped<u8>) -> i64 {
    let mut memory = M::of(Entry::EncodePoint);
    let [first, second, third] = values;
    // SAFETY: as for `unpack_line`.
    let answer = unsafe {
        ffi::imurraqi_encode_point(
            memory.input(&layout).cast(),
            first,
            second,
            third,
            memory.output(packed.whole()),
            packed.length(),
            memory.output(whole(&mut packed.cuts)),
        )
    };
    memory.answered(answer)
}
