//! One value.

use imurraqi::ffi;

use crate::plain::values::Setting;

pub fn dequantize([model, range, depth, channel]: Setting, code: u16, value: &mut f32) -> i64 {
    // SAFETY: the pointer is to one float that nothing else uses.
    unsafe { ffi::imurraqi_dequantize(model, range, depth, channel, code, value) }
}

pub fn quantize([model, range, depth, channel]: Setting, value: f32, cuts: &mut u32) -> i64 {
    // SAFETY: the pointer is to one number that nothing else uses.
    unsafe { ffi::imurraqi_quantize(model, range, depth, channel, value, cuts) }
}
