//! Programs with one mistake each, which the tests must catch, made from two
//! right programs, which the tests must pass.

use crate::card::{
    self as cards, expected_read as expected_card_read, expected_rewrite,
    expected_write as expected_card_write,
};
use crate::color::{self as colors, expected_convert};
use crate::descriptor::{self as descriptors, expected_read, expected_write};
use crate::field::{self as fields, expected_field_bytes, expected_field_code};
use crate::history::{self as histories, replays::expected_replay};
use crate::library::Library;
use crate::lines::{
    self, expected_encode_line, expected_encode_point, expected_pack_line, expected_unpack_line,
};
use crate::list::{self as lists, EXPECTED_LIST};
use crate::part::Part;
use crate::picture::{
    self as pictures, expected_export, expected_export_len, expected_import, expected_import_len,
};
use crate::plain::PLAIN;
use crate::quantization::{self as values, expected_dequantize, expected_quantize};
use crate::stack::{self as stacks, expected_find};

mod bound;
mod bound_whole;
mod card_access;
mod card_read;
mod card_read_refusals;
mod card_reads;
mod card_rewrite;
mod card_write;
mod card_write_refusals;
mod color;
mod color_formulas;
mod color_lines;
mod color_reckoning;
mod color_refusals;
mod converts;
mod cut_counts;
mod cut_stores;
mod cut_values;
mod cuts;
mod decode;
mod descriptor;
mod encode;
mod ends;
mod field;
mod field_bytes;
mod field_code;
mod groups;
mod history;
mod list;
mod pack;
mod picture;
mod points;
mod quantization;
mod rising;
mod stack;
mod stack_refusals;
mod unpack;

/// A mistake, and the program that makes it.
pub type Wrong = (&'static str, Library);

pub const REFERENCE: Library = Library {
    dequantize: expected_dequantize,
    quantize: |setting, value, cuts| expected_quantize(setting, value.to_bits(), cuts),
    field_bytes: expected_field_bytes,
    field_code: expected_field_code,
    unpack_line: expected_unpack_line,
    pack_line: expected_pack_line,
    decode_line: lines::expected_decode_line,
    decode_point: lines::expected_decode_point,
    encode_line: expected_encode_line,
    encode_point: expected_encode_point,
    descriptor_read: expected_read,
    descriptor_write: expected_write,
    rgb_to_ycbcr: expected_convert,
    ycbcr_to_rgb: expected_convert,
    card_read: expected_card_read,
    card_write: expected_card_write,
    card_rewrite: expected_rewrite,
    replay: expected_replay,
    stack_find: expected_find,
    ppm_export: expected_export,
    ppm_export_len: expected_export_len,
    ppm_import: expected_import,
    ppm_import_len: expected_import_len,
    stack_list: EXPECTED_LIST,
};

pub const RIGHT: &[Library] = &[REFERENCE, PLAIN];

/// Programs that are right for some parts alone.
pub const RIGHT_FOR: &[(&[Part], Library)] = &[
    (&[colors::bound::WHOLE], bound_whole::RIGHT),
    (pictures::WHOLE_PARTS, picture::whole::RIGHT),
];

/// Those that Netpbm must show.
pub const FOR_NETPBM: &[&[Wrong]] = &[picture::by_netpbm::EXPORTS, picture::by_netpbm::IMPORTS];

/// The wrong programs of each subject, with the parts that must catch them.
pub const WRONG: &[(&[Part], &[Wrong])] = &[
    (values::PARTS, quantization::WRONG),
    (values::PARTS, ends::QUANTIZING),
    (values::PARTS, cuts::QUANTIZING),
    (values::PARTS, cut_values::QUANTIZING),
    (values::PARTS, cut_stores::QUANTIZING),
    (&[values::rising::PART], rising::QUANTIZING),
    (fields::PARTS, field::WRONG),
    (fields::PARTS, field_bytes::WRONG),
    (fields::PARTS, field_code::WRONG),
    (lines::PARTS, unpack::WRONG),
    (lines::PARTS, pack::WRONG),
    (lines::PARTS, decode::WRONG),
    (lines::PARTS, encode::WRONG),
    (lines::PARTS, ends::ENCODING),
    (lines::PARTS, cuts::ENCODING),
    (lines::PARTS, cut_values::ENCODING),
    (lines::PARTS, cut_counts::ENCODING),
    (lines::PARTS, cut_counts::ENCODING_A_POINT),
    (lines::PARTS, cut_stores::ENCODING),
    (lines::PARTS, cut_stores::ENCODING_A_LINE),
    (&[lines::rising::PART], rising::ENCODING),
    (&[lines::rising::PART], rising::IN_LINES),
    (lines::groups::PARTS, groups::orders::WRONG),
    (lines::groups::PARTS, groups::orders::ON_SCALES),
    (lines::groups::PARTS, groups::reading::PLACES),
    (lines::groups::PARTS, groups::reading::CHANGES),
    (lines::groups::PARTS, groups::reading::ANSWERS),
    (lines::groups::PARTS, groups::reading::ACCEPTED),
    (lines::groups::PARTS, groups::reading::AS_POINTS),
    (lines::groups::PARTS, groups::colors::WRONG),
    (lines::groups::PARTS, groups::colors::CUTS),
    (lines::groups::PARTS, groups::colors::TAKEN),
    (lines::groups::PARTS, groups::refusals::ANSWERS),
    (lines::groups::PARTS, groups::refusals::ACCEPTED),
    (lines::groups::PARTS, groups::refusals::OTHERS),
    (lines::groups::PARTS, groups::turns::WRONG),
    (lines::groups::PARTS, groups::layouts::RANGES),
    (lines::groups::WHOLE_PARTS, groups::orders::WRONG),
    (lines::groups::WHOLE_PARTS, groups::orders::ON_SCALES),
    (lines::groups::PARTS, groups::layouts::WRONG),
    (lines::groups::PARTS, groups::others::POINTS),
    (lines::PARTS, groups::refusals::OF_POINTS),
    (fields::PARTS, groups::others::FIELDS),
    (descriptors::PARTS, groups::others::DESCRIPTORS),
    (descriptors::PARTS, descriptor::WRONG),
    (colors::PARTS, color::WRONG),
    (colors::PARTS, ends::CONVERTING),
    (colors::PARTS, cuts::CONVERTING),
    (colors::PARTS, cut_values::CONVERTING),
    (colors::PARTS, cut_values::CONVERTING_TO_RGB),
    (colors::PARTS, cut_counts::CONVERTING),
    (colors::PARTS, cut_stores::CONVERTING),
    (colors::PARTS, cut_stores::CONVERTING_A_LINE),
    (colors::PARTS, color_formulas::WRONG),
    (colors::PARTS, color_reckoning::WRONG),
    (colors::PARTS, color_lines::WRONG),
    (colors::PARTS, color_refusals::WRONG),
    (&[colors::bound::POINTS], bound::IN_PIECES),
    (&[colors::bound::POINTS], bound::WRONG),
    (&[colors::bound::EXAMPLES], bound::UNLIKE_EXAMPLES),
    (&[colors::bound::WHOLE], bound_whole::WRONG),
    (cards::PARTS, card_access::WRONG),
    (cards::PARTS, card_read::WRONG),
    (cards::PARTS, card_read_refusals::WRONG),
    (cards::PARTS, card_write::WRONG),
    (cards::PARTS, card_write_refusals::WRONG),
    (cards::PARTS, card_rewrite::WRONG),
    (cards::PARTS, groups::cards::READING),
    (cards::PARTS, groups::cards::WRITING_A_CARD),
    (cards::PARTS, groups::cards::REWRITING),
    (histories::PARTS, history::WRONG),
    (histories::PARTS, groups::history::WRONG),
    (stacks::PARTS, stack::WRONG),
    (stacks::PARTS, stack_refusals::WRONG),
    (stacks::PARTS, groups::cards::FINDING),
    (pictures::PARTS, picture::codes::WRONG),
    (pictures::PARTS, picture::groups::WRONG),
    (pictures::PARTS, picture::files::HEADERS),
    (pictures::PARTS, picture::files::STORED),
    (pictures::PARTS, picture::files::WRONG),
    (pictures::PARTS, picture::export_refusals::WRONG),
    (pictures::PARTS, picture::export_refusals::ANSWERS),
    (pictures::PARTS, picture::export_refusals::LENGTHS),
    (pictures::PARTS, picture::lengths::EXPORTING),
    (pictures::PARTS, picture::lengths::OF_FILES),
    (pictures::PARTS, picture::lengths::OF_POINTS),
    (pictures::PARTS, picture::lengths::IMPORTING),
    (pictures::PARTS, picture::card_made::WRONG),
    (pictures::PARTS, picture::card_made::STORED),
    (pictures::PARTS, picture::card_made::ANSWERS),
    (pictures::PARTS, picture::import_refusals::ROWS),
    (pictures::PARTS, picture::import_refusals::CODES_ABOVE),
    (pictures::PARTS, picture::import_refusals::WRONG),
    (pictures::PARTS, picture::headers::TAKEN),
    (pictures::PARTS, picture::headers::READ),
    (pictures::PARTS, picture::memory::BEGUN),
    (pictures::PARTS, picture::memory::LEFT),
    (pictures::PARTS, picture::memory::WRONG),
    (pictures::WHOLE_PARTS, picture::whole::WRONG),
    (lists::PARTS, list::WRONG),
    (lists::PARTS, groups::cards::LISTING),
];
