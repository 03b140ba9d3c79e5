//! A plain program, which knows nothing of the reference's numbers: values in
//! float arithmetic, fields from a point of zeros, points and groups bit by bit, descriptors
//! byte by byte, colors over one denominator, cards row by row, stacks from their
//! end, pictures code by code. Its pieces can be exchanged for wrong ones.

use crate::library::{Convert, Library, Quantize};

pub mod card;
pub mod color;
pub mod descriptor;
pub mod field;
pub mod history;
pub mod layout;
pub mod lines;
pub mod picture;
pub mod quantization;
pub mod stack;

use self::quantization::{divided, half_up, line, rounded};

pub const PLAIN: Library = Library {
    dequantize: |setting, code, slot| divided(setting, code, slot, line, |p, q| p / q),
    quantize: QUANTIZE,
    field_bytes: |layout, channel, first| field::told(layout, channel, first, field::held),
    field_code: |layout, channel, bytes| field::taken(layout, channel, bytes, field::held),
    unpack_line: |layout, packed, out| lines::unpacked(layout, packed, out, lines::place),
    pack_line: |layout, codes, out| lines::packed(layout, codes, out, lines::place),
    decode_line: |layout, packed, out| lines::decoded(layout, packed, out, line, |p, q| p / q),
    decode_point: |layout, bytes, out| {
        lines::single(layout, || {
            lines::decoded(layout, bytes, out, line, |p, q| p / q)
        })
    },
    encode_line: |layout, values, out| lines::encoded(layout, values, out, QUANTIZE),
    encode_point: |layout, values, out| lines::encoded_point(layout, values, out, QUANTIZE),
    descriptor_read: |bytes, out| {
        descriptor::read(bytes, out, descriptor::rising, descriptor::limits)
    },
    descriptor_write: |layout, out| {
        descriptor::written(layout, out, descriptor::rising, descriptor::limits)
    },
    rgb_to_ycbcr: CONVERT,
    ycbcr_to_rgb: CONVERT,
    card_read: |card, edition, told| card::read(card, edition, told, &card::READING, card::shown),
    card_write: |edition, facts, out| {
        card::written(edition, facts, out, &card::WRITING, card::least)
    },
    card_rewrite: |card, edition, out| {
        card::rewritten(card, edition, out, &card::READING, card::shown)
    },
    replay: |asked| history::replayed(asked, &PLAIN),
    stack_find: stack::found,
    ppm_export: |card, edition, packed, out| {
        picture::exported(card, edition, packed, out, &picture::EXPORTING)
    },
    ppm_export_len: |card, edition| picture::export_told(card, edition, &picture::EXPORTING),
    ppm_import: |ppm, item, primaries, made| {
        picture::imported(ppm, item, primaries, made, &picture::IMPORTING)
    },
    ppm_import_len: |ppm| picture::import_told(ppm, &picture::IMPORTING),
    stack_list: |pieces| {
        stack::listed(
            pieces,
            stack::WORDS,
            |width, height| [width, height],
            |item| item,
        )
    },
};

const QUANTIZE: Quantize = |setting, value, cuts| rounded(setting, value, cuts, line, half_up);

const CONVERT: Convert = |direction, conversion, codes, out| {
    color::converted(direction, conversion, codes, out, color::PIECES)
};
