//! The C interface as include/imurraqi.h declares it, in the same order and by the
//! same names; tests/names compares the two.
//!
//! # Safety
//!
//! Each function asks the same of its caller. No pointer is null; each is to as many
//! elements as the length after it says, or to the array that its type says; and
//! what is written to overlaps nothing else that is given.

extern "C" {
    pub fn imurraqi_descriptor_read(bytes: *const u8, len: usize, layout: *mut [u8; 9]) -> i64;

    pub fn imurraqi_descriptor_write(layout: *const [u8; 9], out: *mut u8, out_len: usize) -> i64;

    pub fn imurraqi_dequantize(
        model: u8,
        range: u8,
        depth: u8,
        channel: u8,
        code: u16,
        value: *mut f32,
    ) -> i64;

    pub fn imurraqi_quantize(
        model: u8,
        range: u8,
        depth: u8,
        channel: u8,
        value: f32,
        cuts: *mut u32,
    ) -> i64;

    pub fn imurraqi_decode_point(
        layout: *const [u8; 9],
        bytes: *const u8,
        len: usize,
        point: *mut [f32; 3],
    ) -> i64;

    pub fn imurraqi_decode_line(
        layout: *const [u8; 9],
        packed: *const u8,
        len: usize,
        out: *mut f32,
        out_len: usize,
    ) -> i64;

    pub fn imurraqi_encode_point(
        layout: *const [u8; 9],
        channel0: f32,
        channel1: f32,
        channel2: f32,
        out: *mut u8,
        out_len: usize,
        cuts: *mut u32,
    ) -> i64;

    pub fn imurraqi_encode_line(
        layout: *const [u8; 9],
        values: *const f32,
        len: usize,
        out: *mut u8,
        out_len: usize,
        cuts: *mut u32,
    ) -> i64;

    pub fn imurraqi_field_bytes(layout: *const [u8; 9], channel: u8, first: *mut u8) -> i64;

    pub fn imurraqi_field_code(
        layout: *const [u8; 9],
        channel: u8,
        bytes: *const u8,
        len: usize,
    ) -> i64;

    pub fn imurraqi_unpack_line(
        layout: *const [u8; 9],
        packed: *const u8,
        len: usize,
        out: *mut u16,
        out_len: usize,
    ) -> i64;

    pub fn imurraqi_pack_line(
        layout: *const [u8; 9],
        codes: *const u16,
        len: usize,
        out: *mut u8,
        out_len: usize,
    ) -> i64;

    pub fn imurraqi_rgb_to_ycbcr(
        primaries: u8,
        depth: u8,
        range_in: u8,
        range_out: u8,
        codes: *const u16,
        len: usize,
        out: *mut u16,
        out_len: usize,
        cuts: *mut u32,
    ) -> i64;

    pub fn imurraqi_ycbcr_to_rgb(
        primaries: u8,
        depth: u8,
        range_in: u8,
        range_out: u8,
        codes: *const u16,
        len: usize,
        out: *mut u16,
        out_len: usize,
        cuts: *mut u32,
    ) -> i64;

    pub fn imurraqi_card_read(
        card: *const u8,
        len: usize,
        edition: u8,
        layout: *mut [u8; 9],
        facts: *mut [u64; 4],
    ) -> i64;

    pub fn imurraqi_card_write(
        edition: u8,
        layout: *const [u8; 9],
        width: u16,
        height: u16,
        item: u64,
        access: u8,
        out: *mut u8,
        out_len: usize,
    ) -> i64;

    pub fn imurraqi_card_rewrite(
        card: *const u8,
        len: usize,
        edition: u8,
        out: *mut u8,
        out_len: usize,
    ) -> i64;

    pub fn imurraqi_replay(
        first: u8,
        layout: *const [u8; 9],
        width: u16,
        height: u16,
        item: u64,
        access: u8,
        card: *mut u8,
        card_len: usize,
        editions: *const u8,
        editions_len: usize,
        lengths: *const usize,
        lengths_len: usize,
        outputs: *mut u8,
        outputs_len: usize,
        answers: *mut u8,
        answers_len: usize,
        last: u8,
        packed: *const u8,
        packed_len: usize,
        values: *mut f32,
        values_len: usize,
        read: *mut [u64; 14],
        decoded: *mut [u64; 2],
    ) -> i64;

    pub fn imurraqi_stack_find(stack: *const u8, len: usize, edition: u8, item: u64) -> i64;

    pub fn imurraqi_ppm_export(
        card: *const u8,
        card_len: usize,
        edition: u8,
        packed: *const u8,
        packed_len: usize,
        out: *mut u8,
        out_len: usize,
    ) -> i64;

    pub fn imurraqi_ppm_export_len(card: *const u8, card_len: usize, edition: u8) -> i64;

    pub fn imurraqi_ppm_import(
        ppm: *const u8,
        len: usize,
        item: u64,
        primaries: u8,
        card: *mut u8,
        card_len: usize,
        packed: *mut u8,
        packed_len: usize,
    ) -> i64;

    pub fn imurraqi_ppm_import_len(ppm: *const u8, len: usize) -> i64;
}
