//! The entries of the C interface, as its header describes them.

use self::Lent::{In, Out};

#[derive(Clone, Copy, Debug, PartialEq)]
pub enum Entry {
    DescriptorRead,
    DescriptorWrite,
    Dequantize,
    Quantize,
    DecodePoint,
    DecodeLine,
    EncodePoint,
    EncodeLine,
    FieldBytes,
    FieldCode,
    UnpackLine,
    PackLine,
    RgbToYcbcr,
    YcbcrToRgb,
    CardRead,
    CardWrite,
    CardRewrite,
    Replay,
    StackFind,
    PpmExport,
    PpmExportLen,
    PpmImport,
    PpmImportLen,
}

/// What lies behind a pointer, by the pointer's name: only read, or written to.
#[derive(Clone, Copy)]
pub enum Lent {
    In(&'static str),
    Out(&'static str),
}

impl Lent {
    pub fn name(self) -> &'static str {
        match self {
            In(name) | Out(name) => name,
        }
    }
}

pub struct Description {
    pub entry: Entry,
    pub name: &'static str,
    /// The numbers of its refusals.
    pub refusals: &'static [usize],
    /// Its pointers, in their order.
    pub lent: &'static [Lent],
}

impl Entry {
    pub fn description(self) -> &'static Description {
        &ENTRIES[self as usize]
    }
}

const fn describe(
    entry: Entry,
    name: &'static str,
    refusals: &'static [usize],
    lent: &'static [Lent],
) -> Description {
    Description {
        entry,
        name,
        refusals,
        lent,
    }
}

/// All of them, in the order of their numbers.
pub static ENTRIES: [Description; 23] = [
    describe(
        Entry::DescriptorRead,
        "imurraqi_descriptor_read",
        &[1, 2, 3, 4, 5, 6],
        &[In("bytes"), Out("layout")],
    ),
    describe(
        Entry::DescriptorWrite,
        "imurraqi_descriptor_write",
        &[9, 13],
        &[In("layout"), Out("out")],
    ),
    describe(
        Entry::Dequantize,
        "imurraqi_dequantize",
        &[9, 14],
        &[Out("value")],
    ),
    describe(
        Entry::Quantize,
        "imurraqi_quantize",
        &[9, 12],
        &[Out("cuts")],
    ),
    describe(
        Entry::DecodePoint,
        "imurraqi_decode_point",
        &[9, 13],
        &[In("layout"), In("bytes"), Out("point")],
    ),
    describe(
        Entry::DecodeLine,
        "imurraqi_decode_line",
        &[9, 13],
        &[In("layout"), In("packed"), Out("out")],
    ),
    describe(
        Entry::EncodePoint,
        "imurraqi_encode_point",
        &[9, 12, 13],
        &[In("layout"), Out("out"), Out("cuts")],
    ),
    describe(
        Entry::EncodeLine,
        "imurraqi_encode_line",
        &[9, 12, 13, 16],
        &[In("layout"), In("values"), Out("out"), Out("cuts")],
    ),
    describe(
        Entry::FieldBytes,
        "imurraqi_field_bytes",
        &[9],
        &[In("layout"), Out("first")],
    ),
    describe(
        Entry::FieldCode,
        "imurraqi_field_code",
        &[9, 13],
        &[In("layout"), In("bytes")],
    ),
    describe(
        Entry::UnpackLine,
        "imurraqi_unpack_line",
        &[9, 13],
        &[In("layout"), In("packed"), Out("out")],
    ),
    describe(
        Entry::PackLine,
        "imurraqi_pack_line",
        &[9, 13, 14, 16],
        &[In("layout"), In("codes"), Out("out")],
    ),
    describe(
        Entry::RgbToYcbcr,
        "imurraqi_rgb_to_ycbcr",
        &[9, 13, 14],
        &[In("codes"), Out("out"), Out("cuts")],
    ),
    describe(
        Entry::YcbcrToRgb,
        "imurraqi_ycbcr_to_rgb",
        &[9, 13, 14],
        &[In("codes"), Out("out"), Out("cuts")],
    ),
    describe(
        Entry::CardRead,
        "imurraqi_card_read",
        &[1, 7, 8, 9, 10, 16],
        &[In("card"), Out("layout"), Out("facts")],
    ),
    describe(
        Entry::CardWrite,
        "imurraqi_card_write",
        &[7, 9, 11, 13, 16],
        &[In("layout"), Out("out")],
    ),
    describe(
        Entry::CardRewrite,
        "imurraqi_card_rewrite",
        &[1, 7, 8, 9, 10, 13, 16],
        &[In("card"), Out("out")],
    ),
    describe(
        Entry::Replay,
        "imurraqi_replay",
        &[7, 9, 11, 13, 16],
        &[
            In("layout"),
            Out("card"),
            In("editions"),
            In("lengths"),
            Out("outputs"),
            Out("answers"),
            In("packed"),
            Out("values"),
            Out("read"),
            Out("decoded"),
        ],
    ),
    describe(
        Entry::StackFind,
        "imurraqi_stack_find",
        &[1, 7, 15],
        &[In("stack")],
    ),
    describe(
        Entry::PpmExport,
        "imurraqi_ppm_export",
        &[1, 7, 8, 9, 10, 13, 16, 17],
        &[In("card"), In("packed"), Out("out")],
    ),
    describe(
        Entry::PpmExportLen,
        "imurraqi_ppm_export_len",
        &[1, 7, 8, 9, 10, 16, 17],
        &[In("card")],
    ),
    describe(
        Entry::PpmImport,
        "imurraqi_ppm_import",
        &[9, 13, 18],
        &[In("ppm"), Out("card"), Out("packed")],
    ),
    describe(
        Entry::PpmImportLen,
        "imurraqi_ppm_import_len",
        &[18],
        &[In("ppm")],
    ),
];
