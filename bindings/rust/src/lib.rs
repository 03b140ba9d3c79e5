//! The verified codec Imurraqi over slices: lines of video points, the descriptors
//! of their layouts, catalogue cards, and pictures.
//!
//! Every function of the C interface is here, with numbers and slices in and a
//! [`Result`] out. A call is answered, or refused by a [`Refusal`], and then nothing
//! that was lent to be written to has changed. No call panics, and any numbers and
//! any lengths may be given: what the library does not know, it refuses. So models,
//! ranges, depths, editions and accesses are plain numbers here, and those that are
//! known have names ([`model`], [`primaries`], [`range`], [`sampling`], [`access`]).
//!
//! ```
//! use imurraqi::{decode_line, range, ycbcr_to_rgb, unpack_line, Layout, Refusal};
//!
//! // Y'CbCr of BT.601, narrow, 10 bits a channel in 4 bytes a point.
//! let layout = Layout::from_bytes([2, 2, 1, 10, 4, 0, 10, 20, 0]);
//! let packed = [0xac, 0x03, 0x08, 0x20, 0x46, 0xa5, 0x05, 0x3c];
//! let (mut codes, mut colors, mut values) = ([0; 6], [0; 6], [0.0; 6]);
//!
//! assert_eq!(unpack_line(layout, &packed, &mut codes)?, 2);
//! assert_eq!(codes, [940, 512, 512, 326, 361, 960]);
//!
//! ycbcr_to_rgb(layout.conversion(range::FULL), &codes, &mut colors)?;
//! assert_eq!(colors, [1023, 1023, 1023, 1023, 0, 0]);
//!
//! decode_line(layout, &packed, &mut values)?;
//! assert_eq!(values[..3], [1.0, 0.0, 0.0]);
//! # Ok::<(), Refusal>(())
//! ```
//!
//! The library itself, libimurraqi.a, is looked for in the directory that the
//! environment variable `IMURRAQI_LIB_DIR` names; if that is not set, where it was
//! built or installed together with this crate; else where pkg-config says.

#![warn(missing_docs)]

mod cards;
mod clamped;
mod colors;
mod descriptors;
// The header says what each function does.
#[allow(missing_docs)]
pub mod ffi;
mod fields;
mod history;
mod layout;
mod lines;
mod pictures;
mod refusal;
mod values;

pub use cards::{
    access, card_read, card_rewrite, card_write, find, stack_find, Facts, CARD_SIZE, MOST_CARDS,
    NEWEST_EDITION,
};
pub use clamped::Clamped;
pub use colors::{rgb_to_ycbcr, ycbcr_to_rgb, Conversion};
pub use descriptors::{descriptor_read, descriptor_write, DESCRIPTOR_SIZE};
pub use fields::{field_bytes, field_code};
pub use history::{replay, History, Replayed};
pub use layout::{model, primaries, range, sampling, Layout};
pub use lines::{
    decode_line, decode_point, encode_line, encode_point, pack_line, unpack_line, MOST_POINTS,
};
pub use pictures::{ppm_export, ppm_export_len, ppm_import, ppm_import_len};
pub use refusal::Refusal;
pub use values::{dequantize, quantize, Dequantized, Quantized, Setting};
