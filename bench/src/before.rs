//! An earlier state's library beside the present one. Both are loaded as shared objects,
//! so that the same names may be in both, and are called in the same way: a call through a
//! pointer that was found is not as long as one of a function that was linked, by up to
//! two fifths of a short one.

use std::ffi::{c_char, c_int, c_void, CStr, CString};
use std::mem::transmute_copy;

use imurraqi::ffi;

use crate::plain::colors::Conversion;
use crate::plain::layout::Numbers;
use crate::plain::values::Setting;

/// The two libraries, which stay loaded.
pub struct Before([*mut c_void; 2]);

/// A job by the present library, and the same by the earlier one.
pub type Both<J> = [J; 2];

/// As [`LineJob`](crate::case::LineJob), by a function that was found.
pub type LineBefore<S, I, O> = Box<dyn Fn(S, &[I], &mut [O], &mut u32) -> i64>;

pub type QuantizeBefore = Box<dyn Fn(Setting, f32, &mut u32) -> i64>;
pub type DecodePointBefore = Box<dyn Fn(Numbers, &[u8], &mut [f32; 3]) -> i64>;
pub type EncodePointBefore = Box<dyn Fn(Numbers, [f32; 3], &mut [u8], &mut u32) -> i64>;

type Quantize = unsafe extern "C" fn(u8, u8, u8, u8, f32, *mut u32) -> i64;
type DecodePoint = unsafe extern "C" fn(*const Numbers, *const u8, usize, *mut [f32; 3]) -> i64;
type EncodePoint =
    unsafe extern "C" fn(*const Numbers, f32, f32, f32, *mut u8, usize, *mut u32) -> i64;
type Line<I, O> = unsafe extern "C" fn(*const Numbers, *const I, usize, *mut O, usize) -> i64;
type EncodeLine =
    unsafe extern "C" fn(*const Numbers, *const f32, usize, *mut u8, usize, *mut u32) -> i64;
type Convert =
    unsafe extern "C" fn(u8, u8, u8, u8, *const u16, usize, *mut u16, usize, *mut u32) -> i64;

extern "C" {
    fn dlopen(path: *const c_char, flags: c_int) -> *mut c_void;
    fn dlsym(library: *mut c_void, name: *const c_char) -> *mut c_void;
}

const RTLD_NOW: c_int = 2;

/// The entries that are compared. Their parameters are the same in both libraries, or
/// the earlier one lacks the last, the number of cuts: on x86-64 it then does not look at
/// it, and whoever calls clears it away. So its cuts may be left as they were, and are not
/// compared. A layout may have had eight numbers: then the first eight of the nine that are
/// lent are looked at, and groups are to be left out. So are other entries whose parameters
/// change. None if the earlier library does not have it.
impl Before {
    pub fn quantize(&self) -> Option<Both<QuantizeBefore>> {
        let linked: Quantize = ffi::imurraqi_quantize;
        let entries = self.entries(c"imurraqi_quantize", linked)?;
        Some(entries.map(|entry| -> QuantizeBefore {
            Box::new(move |setting, value, cuts| {
                let [model, range, depth, channel] = setting;
                // SAFETY: nothing else uses the number of cuts.
                unsafe { entry(model, range, depth, channel, value, cuts) }
            })
        }))
    }

    pub fn decode_point(&self) -> Option<Both<DecodePointBefore>> {
        let linked: DecodePoint = ffi::imurraqi_decode_point;
        let entries = self.entries(c"imurraqi_decode_point", linked)?;
        Some(entries.map(|entry| -> DecodePointBefore {
            Box::new(move |layout, packed, point| {
                // SAFETY: as for a line, and the point is three floats.
                unsafe { entry(&layout, packed.as_ptr(), packed.len(), point) }
            })
        }))
    }

    pub fn encode_point(&self) -> Option<Both<EncodePointBefore>> {
        let linked: EncodePoint = ffi::imurraqi_encode_point;
        let entries = self.entries(c"imurraqi_encode_point", linked)?;
        Some(entries.map(|entry| -> EncodePointBefore {
            Box::new(move |layout, [x, y, z], out, cuts| {
                // SAFETY: as for a line.
                unsafe { entry(&layout, x, y, z, out.as_mut_ptr(), out.len(), cuts) }
            })
        }))
    }

    pub fn decode_line(&self) -> Option<Both<LineBefore<Numbers, u8, f32>>> {
        self.line(c"imurraqi_decode_line", ffi::imurraqi_decode_line)
    }

    pub fn encode_line(&self) -> Option<Both<LineBefore<Numbers, f32, u8>>> {
        let linked: EncodeLine = ffi::imurraqi_encode_line;
        let entries = self.entries(c"imurraqi_encode_line", linked)?;
        Some(entries.map(|entry| -> LineBefore<Numbers, f32, u8> {
            Box::new(move |layout, given, out, cuts| {
                let (values, len) = (given.as_ptr(), given.len());
                // SAFETY: as for the other lines.
                unsafe { entry(&layout, values, len, out.as_mut_ptr(), out.len(), cuts) }
            })
        }))
    }

    pub fn unpack_line(&self) -> Option<Both<LineBefore<Numbers, u8, u16>>> {
        self.line(c"imurraqi_unpack_line", ffi::imurraqi_unpack_line)
    }

    pub fn pack_line(&self) -> Option<Both<LineBefore<Numbers, u16, u8>>> {
        self.line(c"imurraqi_pack_line", ffi::imurraqi_pack_line)
    }

    pub fn rgb_to_ycbcr(&self) -> Option<Both<LineBefore<Conversion, u16, u16>>> {
        self.convert(c"imurraqi_rgb_to_ycbcr", ffi::imurraqi_rgb_to_ycbcr)
    }

    pub fn ycbcr_to_rgb(&self) -> Option<Both<LineBefore<Conversion, u16, u16>>> {
        self.convert(c"imurraqi_ycbcr_to_rgb", ffi::imurraqi_ycbcr_to_rgb)
    }
}

impl Before {
    pub fn load([present, earlier]: Both<&str>) -> Result<Before, String> {
        Ok(Before([loaded(present)?, loaded(earlier)?]))
    }

    fn line<I: 'static, O: 'static>(
        &self,
        name: &CStr,
        linked: Line<I, O>,
    ) -> Option<Both<LineBefore<Numbers, I, O>>> {
        let entries = self.entries(name, linked)?;
        Some(entries.map(|entry| -> LineBefore<Numbers, I, O> {
            Box::new(move |layout, given, out, _| {
                let (elements, len) = (given.as_ptr(), given.len());
                // SAFETY: the pointers are to as many elements as the lengths say, and
                // nothing else uses the output.
                unsafe { entry(&layout, elements, len, out.as_mut_ptr(), out.len()) }
            })
        }))
    }

    fn convert(
        &self,
        name: &CStr,
        linked: Convert,
    ) -> Option<Both<LineBefore<Conversion, u16, u16>>> {
        let entries = self.entries(name, linked)?;
        Some(entries.map(|entry| -> LineBefore<Conversion, u16, u16> {
            Box::new(move |conversion, given, out, cuts| {
                let [primaries, depth, range_in, range_out] = conversion;
                let (codes, len) = (given.as_ptr(), given.len());
                let (made, made_len) = (out.as_mut_ptr(), out.len());
                // SAFETY: as for the other lines.
                unsafe {
                    entry(
                        primaries, depth, range_in, range_out, codes, len, made, made_len, cuts,
                    )
                }
            })
        }))
    }

    /// The two functions of a name, of the linked one's type. That must be a pointer to it:
    /// the name of a function alone has a type of its own, which can only be the linked one.
    fn entries<F: Copy>(&self, name: &CStr, _linked: F) -> Option<Both<F>> {
        const { assert!(size_of::<F>() == size_of::<*mut c_void>()) };
        // SAFETY: the libraries are loaded, and the name ends in a zero byte.
        let found = self
            .0
            .map(|library| unsafe { dlsym(library, name.as_ptr()) });
        // SAFETY: F is a pointer to a function of the C interface, and has the same
        // parameters in both, or one more for the number of cuts, or a longer layout.
        let entry = |found| unsafe { transmute_copy(&found) };
        found
            .iter()
            .all(|found| !found.is_null())
            .then(|| found.map(entry))
    }
}

fn loaded(path: &str) -> Result<*mut c_void, String> {
    let error = || format!("{path}: not a library that can be loaded");
    let name = CString::new(path).map_err(|_| error())?;
    // SAFETY: the name ends in a zero byte, and the library runs nothing when it is
    // loaded.
    let library = unsafe { dlopen(name.as_ptr(), RTLD_NOW) };
    if library.is_null() {
        return Err(error());
    }
    Ok(library)
}
