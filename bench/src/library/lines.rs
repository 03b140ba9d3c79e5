//! Lines, colors and points. Lines go through the binding's safe functions, which
//! cost nothing beside a line. Beside a single call they would be seen.

use imurraqi::{ffi, Clamped, Layout, Refusal};

use crate::plain::colors::Conversion;
use crate::plain::layout::Numbers;

pub fn unpack_line(layout: Numbers, packed: &[u8], codes: &mut [u16]) -> i64 {
    let layout = Layout::from_bytes(layout);
    answer(imurraqi::unpack_line(layout, packed, codes))
}

pub fn pack_line(layout: Numbers, codes: &[u16], packed: &mut [u8]) -> i64 {
    let layout = Layout::from_bytes(layout);
    answer(imurraqi::pack_line(layout, codes, packed))
}

pub fn decode_line(layout: Numbers, packed: &[u8], values: &mut [f32]) -> i64 {
    let layout = Layout::from_bytes(layout);
    answer(imurraqi::decode_line(layout, packed, values))
}

pub fn encode_line(layout: Numbers, values: &[f32], packed: &mut [u8], cuts: &mut u32) -> i64 {
    let layout = Layout::from_bytes(layout);
    clamped(imurraqi::encode_line(layout, values, packed), cuts)
}

pub fn decode_point(layout: Numbers, packed: &[u8], point: &mut [f32; 3]) -> i64 {
    // SAFETY: the pointers are to as many bytes as the length says, to nine and to
    // three floats, and nothing else uses the output.
    unsafe { ffi::imurraqi_decode_point(&layout, packed.as_ptr(), packed.len(), point) }
}

pub fn encode_point(
    layout: Numbers,
    [x, y, z]: [f32; 3],
    packed: &mut [u8],
    cuts: &mut u32,
) -> i64 {
    let (out, len) = (packed.as_mut_ptr(), packed.len());
    // SAFETY: as for `decode_point`, and nothing else uses the number of cuts.
    unsafe { ffi::imurraqi_encode_point(&layout, x, y, z, out, len, cuts) }
}

pub fn rgb_to_ycbcr(conversion: Conversion, rgb: &[u16], ycbcr: &mut [u16], cuts: &mut u32) -> i64 {
    clamped(imurraqi::rgb_to_ycbcr(named(conversion), rgb, ycbcr), cuts)
}

pub fn ycbcr_to_rgb(conversion: Conversion, ycbcr: &[u16], rgb: &mut [u16], cuts: &mut u32) -> i64 {
    clamped(imurraqi::ycbcr_to_rgb(named(conversion), ycbcr, rgb), cuts)
}

fn named([primaries, depth, range_in, range_out]: Conversion) -> imurraqi::Conversion {
    imurraqi::Conversion {
        primaries,
        depth,
        range_in,
        range_out,
    }
}

/// As the C interface answers.
fn answer(answered: Result<usize, Refusal>) -> i64 {
    match answered {
        Ok(count) => count as i64,
        Err(refusal) => -i64::from(refusal.number()),
    }
}

/// With the number of cuts where the C interface writes it.
fn clamped(answered: Result<Clamped, Refusal>, cuts: &mut u32) -> i64 {
    answer(answered.map(|made| {
        *cuts = made.cuts as u32;
        made.points
    }))
}
