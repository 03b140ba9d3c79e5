//! The library under test, as plain functions.

use imurraqi::ffi;

use crate::clamped::Clamped;
use crate::guarded::{Guarded, Whole};

use self::card::{CardRead, CardRewrite, CardWrite, StackFind};
use self::entry::Entry;
use self::history::Replay;
use self::memory::{InPlace, Memory};
use self::picture::{PpmExport, PpmExportLen, PpmImport, PpmImportLen};
use self::program::StackList;

pub mod binding;
pub mod card;
pub mod entry;
mod fields;
pub mod history;
mod lines;
pub mod memory;
pub mod picture;
pub mod program;

/// Model, range, depth and channel, in this order.
pub type Setting = [u8; 4];

/// Model, primaries, range, depth, bytes a point, the bit offset of channel 0, 1, 2,
/// and the sampling, in this order.
pub type Layout = [u8; 9];

/// Primaries, depth, the range of the given codes, and that of the codes made, in
/// this order.
pub type Conversion = [u8; 4];

/// The two conversions of colors.
#[derive(Clone, Copy, Debug, PartialEq)]
pub enum Direction {
    RgbToYcbcr,
    YcbcrToRgb,
}

/// A conversion of codes into an output. The codes too lie among guards: they are
/// lent, and must be left as they are.
pub type Convert = fn(Direction, Conversion, &mut Guarded<u16>, &mut Clamped<u16>) -> i64;

/// The code of a float. The slot is for its number of cuts.
pub type Quantize = fn(Setting, f32, &mut Slot) -> i64;

pub type EncodeLine = fn(Layout, &[f32], &mut Clamped<u8>) -> i64;
pub type EncodePoint = fn(Layout, [f32; 3], &mut Clamped<u8>) -> i64;

/// What is told of the bytes of a channel's field, and the code in such bytes.
pub type FieldBytes = fn(Layout, u8, &mut Guarded<u8>) -> i64;
pub type FieldCode = fn(Layout, u8, &[u8]) -> i64;

/// The float that dequantizing fills, or a number of cuts, lies among guard words, so
/// that a write beside it is seen.
pub type Slot = [u32; 5];

/// The place of the float, or of the number, in its slot.
pub const FLOAT: usize = 2;
pub const CUTS: usize = 2;

/// What a slot holds before a call. In the middle is a not-a-number, so no code's float,
/// and more than any number of cuts.
pub const EMPTY_SLOT: Slot = [
    0x5a5a_5a5a,
    0xc3c3_c3c3,
    0x7fa5_a5a5,
    0x3c3c_3c3c,
    0xa5a5_a5a5,
];

/// The functions of the C interface, and the list. Being plain functions, they can
/// be the library's own or, to try the tests themselves, those of a wrong program.
#[derive(Clone, Copy)]
pub struct Library {
    pub dequantize: fn(Setting, u16, &mut Slot) -> i64,
    pub quantize: Quantize,
    /// The output is one byte.
    pub field_bytes: FieldBytes,
    pub field_code: FieldCode,
    pub unpack_line: fn(Layout, &[u8], &mut Guarded<u16>) -> i64,
    pub pack_line: fn(Layout, &[u16], &mut Guarded<u8>) -> i64,
    /// The output holds the bits of floats.
    pub decode_line: fn(Layout, &[u8], &mut Guarded<u32>) -> i64,
    /// The output has the length of a point.
    pub decode_point: fn(Layout, &[u8], &mut Guarded<u32>) -> i64,
    pub encode_line: EncodeLine,
    pub encode_point: EncodePoint,
    /// The output has the length of a layout.
    pub descriptor_read: fn(&[u8], &mut Guarded<u8>) -> i64,
    pub descriptor_write: fn(Layout, &mut Guarded<u8>) -> i64,
    /// These two are told which of them is meant, so that one program can be both.
    pub rgb_to_ycbcr: Convert,
    pub ycbcr_to_rgb: Convert,
    pub card_read: CardRead,
    pub card_write: CardWrite,
    pub card_rewrite: CardRewrite,
    pub replay: Replay,
    pub stack_find: StackFind,
    pub ppm_export: PpmExport,
    pub ppm_export_len: PpmExportLen,
    pub ppm_import: PpmImport,
    pub ppm_import_len: PpmImportLen,
    /// The list is a program of its own.
    pub stack_list: StackList,
}

impl Library {
    pub fn convert(
        &self,
        direction: Direction,
        conversion: Conversion,
        codes: &mut Guarded<u16>,
        out: &mut Clamped<u16>,
    ) -> i64 {
        let convert = match direction {
            Direction::RgbToYcbcr => self.rgb_to_ycbcr,
            Direction::YcbcrToRgb => self.ycbcr_to_rgb,
        };
        convert(direction, conversion, codes, out)
    }
}

/// The static library that this program is linked with.
pub const LINKED: Library = linked::<InPlace>();

/// The same with lent memory of this kind.
pub const fn linked<M: Memory>() -> Library {
    Library {
        dequantize: dequantize::<M>,
        quantize: quantize::<M>,
        field_bytes: fields::field_bytes::<M>,
        field_code: fields::field_code::<M>,
        unpack_line: lines::unpack_line::<M>,
        pack_line: lines::pack_line::<M>,
        decode_line: lines::decode_line::<M>,
        decode_point: lines::decode_point::<M>,
        encode_line: lines::encode_line::<M>,
        encode_point: lines::encode_point::<M>,
        descriptor_read: descriptor_read::<M>,
        descriptor_write: descriptor_write::<M>,
        rgb_to_ycbcr: convert::<M>,
        ycbcr_to_rgb: convert::<M>,
        card_read: card::card_read::<M>,
        card_write: card::card_write::<M>,
        card_rewrite: card::card_rewrite::<M>,
        replay: history::replay::<M>,
        stack_find: card::stack_find::<M>,
        ppm_export: picture::ppm_export::<M>,
        ppm_export_len: picture::ppm_export_len::<M>,
        ppm_import: picture::ppm_import::<M>,
        ppm_import_len: picture::ppm_import_len::<M>,
        stack_list: program::stack_list,
    }
}

type Converting =
    unsafe extern "C" fn(u8, u8, u8, u8, *const u16, usize, *mut u16, usize, *mut u32) -> i64;

/// What is lent of a slot.
fn whole(slot: &mut Slot) -> Whole<'_, u32> {
    Whole {
        memory: slot,
        guard: FLOAT,
    }
}

fn dequantize<M: Memory>(
    [model, range, depth, channel]: Setting,
    code: u16,
    slot: &mut Slot,
) -> i64 {
    let mut memory = M::of(Entry::Dequantize);
    let value = memory.output(whole(slot)).cast();
    // SAFETY: the pointer is to four aligned bytes that nothing else uses.
    memory.answered(unsafe { ffi::imurraqi_dequantize(model, range, depth, channel, code, value) })
}

fn quantize<M: Memory>(
    [model, range, depth, channel]: Setting,
    value: f32,
    slot: &mut Slot,
) -> i64 {
    let mut memory = M::of(Entry::Quantize);
    let cuts = memory.output(whole(slot));
    // SAFETY: as for `dequantize`.
    memory.answered(unsafe { ffi::imurraqi_quantize(model, range, depth, channel, value, cuts) })
}

fn descriptor_read<M: Memory>(bytes: &[u8], layout: &mut Guarded<u8>) -> i64 {
    assert_eq!(layout.length(), size_of::<Layout>());
    let mut memory = M::of(Entry::DescriptorRead);
    // SAFETY: the pointers are to as many elements as the lengths say, nine for
    // the layout, and nothing else uses the output.
    let answer = unsafe {
        ffi::imurraqi_descriptor_read(
            memory.input(bytes),
            bytes.len(),
            memory.output(layout.whole()).cast(),
        )
    };
    memory.answered(answer)
}

fn descriptor_write<M: Memory>(layout: Layout, out: &mut Guarded<u8>) -> i64 {
    let mut memory = M::of(Entry::DescriptorWrite);
    // SAFETY: as for `descriptor_read`.
    let answer = unsafe {
        ffi::imurraqi_descriptor_write(
            memory.input(&layout).cast(),
            memory.output(out.whole()),
            out.length(),
        )
    };
    memory.answered(answer)
}

fn convert<M: Memory>(
    direction: Direction,
    [primaries, depth, range_in, range_out]: Conversion,
    codes: &mut Guarded<u16>,
    out: &mut Clamped<u16>,
) -> i64 {
    let (entry, convert): (_, Converting) = match direction {
        Direction::RgbToYcbcr => (Entry::RgbToYcbcr, ffi::imurraqi_rgb_to_ycbcr),
        Direction::YcbcrToRgb => (Entry::YcbcrToRgb, ffi::imurraqi_ycbcr_to_rgb),
    };
    let mut memory = M::of(entry);
    // SAFETY: as for `descriptor_read`; nothing else uses the codes either.
    let answer = unsafe {
        convert(
            primaries,
            depth,
            range_in,
            range_out,
            memory.kept(codes.whole()),
            codes.length(),
            memory.output(out.whole()),
            out.length(),
            memory.output(whole(&mut out.cuts)),
        )
    };
    memory.answered(answer)
}
