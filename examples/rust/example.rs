//! Finds an item in a stack of cards, shows its facts, writes and reads the
//! descriptor of its layout, turns a line of its points into colors, reads one channel
//! of it alone, sends codes to the ends of its range and tells how many were cut. Then
//! turns a line of an early capture into colors, and writes its card; and a line of a
//! tape deck, whose points share Cb and Cr two by two, which it also encodes. Last it
//! exports a picture, from its card and its packed points, as a file that Netpbm and others
//! read, which goes to PPM if that is given, and imports it again.
//! Usage: example STACK CARD PACKED [PPM]

use imurraqi::{access, model, primaries, range, sampling};
use imurraqi::{Facts, Layout, Refusal, CARD_SIZE, DESCRIPTOR_SIZE};
use std::process::ExitCode;

const POINTS: usize = 4;
const CODES: usize = 3 * POINTS;
const CR: u8 = 2;

/// White, red, green and blue, as item 203002 has them: Y', Cb and Cr of 10 bits
/// each, in four bytes.
const PACKED: [u8; 4 * POINTS] = [
    0xac, 0x03, 0x08, 0x20, 0x46, 0xa5, 0x05, 0x3c, //
    0x42, 0x5e, 0x93, 0x08, 0xa4, 0x00, 0x7f, 0x1b,
];

/// White and red of an early capture, in the older full range: a byte each of Y', Cb
/// and Cr.
const EARLY: [u8; 6] = [255, 128, 128, 77, 85, 255];
const EARLY_LAYOUT: Layout = Layout {
    model: model::YCBCR,
    primaries: primaries::BT601_EBU,
    range: range::LEGACY_FULL,
    depth: 8,
    bytes: 3,
    offsets: [0, 8, 16],
    sampling: sampling::OWN,
};

/// White and black, red and dark red of an old tape deck: two groups of two points, a
/// byte each of Cb, Y', Cr and Y'.
const TAPE: [u8; 2 * POINTS] = [128, 235, 128, 16, 90, 81, 240, 41];
const TAPE_LAYOUT: Layout = Layout {
    range: range::NARROW,
    bytes: 4,
    offsets: [0; 3],
    sampling: sampling::GROUPS,
    ..EARLY_LAYOUT
};

/// What edition 2 shows of an item. Its layout is returned.
fn show_item(stack: &[u8], item: u64) -> Result<Layout, Refusal> {
    let index = imurraqi::stack_find(stack, 2, item)?;
    let facts = imurraqi::card_read(&stack[CARD_SIZE * index..][..CARD_SIZE], 2)?;
    let access = match facts.access {
        access::CLOSED => "closed",
        access::COMMUNITY => "community",
        _ => "open",
    };
    let (place, cards) = (index + 1, stack.len() / CARD_SIZE);
    let (item, width, height) = (facts.item, facts.width, facts.height);
    println!("item {item}: card {place} of {cards}, {width} by {height}, {access}");
    Ok(facts.layout)
}

fn show_points(codes: &[u16], values: &[f32], colors: &[u16]) {
    for i in (0..codes.len()).step_by(3) {
        let [y, cb, cr] = [codes[i], codes[i + 1], codes[i + 2]];
        let [v0, v1, v2] = [values[i], values[i + 1], values[i + 2]];
        let [r, g, b] = [colors[i], colors[i + 1], colors[i + 2]];
        println!("Y'CbCr {y} {cb} {cr} is {v0:.4} {v1:.4} {v2:.4}, R'G'B' {r} {g} {b}");
    }
}

/// The line's codes, values and colors, by a descriptor.
fn show_line(descriptor: &[u8]) -> Result<(), Refusal> {
    let (mut codes, mut colors, mut values) = ([0; CODES], [0; CODES], [0.0; CODES]);
    let layout = imurraqi::descriptor_read(descriptor)?;
    imurraqi::unpack_line(layout, &PACKED, &mut codes)?;
    let made = imurraqi::ycbcr_to_rgb(layout.conversion(range::FULL), &codes, &mut colors)?;
    imurraqi::decode_line(layout, &PACKED, &mut values)?;
    let (depth, bytes) = (layout.depth, layout.bytes);
    println!("points of {depth} bits a channel in {bytes} bytes");
    show_points(&codes, &values, &colors);
    println!("cut: {} of {CODES} codes of R'G'B'", made.cuts);
    Ok(())
}

/// The Cr of each point, without the other channels: only the bytes that hold its field
/// are read.
fn show_fields(layout: Layout) -> Result<(), Refusal> {
    let bytes = imurraqi::field_bytes(layout, CR)?;
    let (count, first) = (bytes.len(), bytes.start);
    print!("Cr alone, {count} bytes from byte {first} of each point:");
    for point in PACKED.chunks(layout.bytes.into()) {
        let code = imurraqi::field_code(layout, CR, &point[bytes.clone()])?;
        print!(" {code}");
    }
    println!();
    Ok(())
}

/// Codes beyond the ends of narrow range, which video keeps for timing. They are
/// packed and decoded as they are, but encoding makes the nearer end of them, and tells
/// how many it cut so.
fn show_ends(layout: Layout) -> Result<(), Refusal> {
    let codes = [1023, 0, 512];
    let mut point = vec![0; layout.bytes.into()];
    imurraqi::pack_line(layout, &codes, &mut point)?;
    let values = imurraqi::decode_point(layout, &point)?;
    let cuts = imurraqi::encode_point(layout, values, &mut point)?.cuts;
    let mut made = [0; 3];
    imurraqi::unpack_line(layout, &point, &mut made)?;
    let ([y, cb, cr], [y_made, cb_made, cr_made]) = (codes, made);
    print!("Y'CbCr {y} {cb} {cr} decoded and encoded: ");
    println!("{y_made} {cb_made} {cr_made}, cut: {cuts}");
    Ok(())
}

/// The card of an item whose layout the edition has, and none before it: a station that is
/// still at the edition before can't write or read such a card.
fn show_card(layout: Layout, item: u64, edition: u8) -> Result<(), Refusal> {
    let facts = Facts {
        layout,
        width: 720,
        height: 576,
        item,
        access: access::COMMUNITY,
    };
    let before = edition - 1;
    let mut card = [0; CARD_SIZE];
    if let Err(refusal @ Refusal::UNWRITABLE) = imurraqi::card_write(before, facts, &mut card) {
        println!("its card at edition {before}: -{}", refusal.number());
    }
    imurraqi::card_write(edition, facts, &mut card)?;
    let (least, item) = (card[0], imurraqi::card_read(&card, edition)?.item);
    println!("its card at edition {edition}: for editions from {least}, item {item}");
    if let Err(refusal @ Refusal::LATER_EDITION) = imurraqi::card_read(&card, before) {
        println!("that card at edition {before}: -{}", refusal.number());
    }
    Ok(())
}

/// An early capture in today's full range, and its card. Edition 3 has its range.
fn show_early() -> Result<(), Refusal> {
    let (mut codes, mut colors, mut values) = ([0; 6], [0; 6], [0.0; 6]);
    imurraqi::unpack_line(EARLY_LAYOUT, &EARLY, &mut codes)?;
    imurraqi::decode_line(EARLY_LAYOUT, &EARLY, &mut values)?;
    imurraqi::ycbcr_to_rgb(EARLY_LAYOUT.conversion(range::FULL), &codes, &mut colors)?;
    println!("an early capture");
    show_points(&codes, &values, &colors);
    show_card(EARLY_LAYOUT, 12, 3)
}

/// A line of groups: both points of a group have its Cb and Cr. Encoding takes those of
/// the first; the second's are not looked at, so that nothing need stand there. Three
/// points are no groups. Edition 4 has such cards, and no descriptor has groups.
fn show_tape() -> Result<(), Refusal> {
    let (mut codes, mut colors, mut values) = ([0; CODES], [0; CODES], [0.0; CODES]);
    imurraqi::unpack_line(TAPE_LAYOUT, &TAPE, &mut codes)?;
    imurraqi::decode_line(TAPE_LAYOUT, &TAPE, &mut values)?;
    imurraqi::ycbcr_to_rgb(TAPE_LAYOUT.conversion(range::FULL), &codes, &mut colors)?;
    println!("a tape, {POINTS} points in groups of two");
    show_points(&codes, &values, &colors);
    for group in values.chunks_mut(6) {
        group[4..].fill(f32::NAN);
    }
    let mut made = [0; TAPE.len()];
    let cuts = imurraqi::encode_line(TAPE_LAYOUT, &values, &mut made)?.cuts;
    let bytes = if made == TAPE { "the same" } else { "other" };
    println!("encoded, {bytes} bytes, cut: {cuts}");
    let three = imurraqi::encode_line(TAPE_LAYOUT, &values[..9], &mut made);
    if let Err(refusal @ Refusal::ODD_COUNT) = three {
        println!("three points of it: -{}", refusal.number());
    }
    let descriptor = imurraqi::descriptor_write(TAPE_LAYOUT, &mut [0; DESCRIPTOR_SIZE]);
    if let Err(refusal @ Refusal::OUTSIDE) = descriptor {
        println!("its descriptor: -{}", refusal.number());
    }
    show_card(TAPE_LAYOUT, 13, 4)
}

/// The file of an open card's picture. For the community the same card is refused.
fn show_export(card: &[u8], packed: &[u8]) -> Result<Vec<u8>, Refusal> {
    let mut file = vec![0; imurraqi::ppm_export_len(card, 2)?];
    let points = imurraqi::ppm_export(card, 2, packed, &mut file)?;
    let lines: Vec<&[u8]> = file.splitn(4, |&byte| byte == b'\n').collect();
    let [first, sides, largest] = [0, 1, 2].map(|line| String::from_utf8_lossy(lines[line]));
    let length = file.len();
    println!("a picture, {points} points in a file of {length} bytes");
    let sum: usize = file.iter().copied().map(usize::from).sum();
    println!("it begins {first}, {sides}, {largest}; its bytes add up to {sum}");
    let mut for_community = card.to_vec();
    for_community[24] = access::COMMUNITY;
    let told = imurraqi::ppm_export_len(&for_community, 2);
    if let Err(refusal @ Refusal::NOT_OPEN) = told {
        println!("for the community: -{}", refusal.number());
    }
    Ok(file)
}

/// A card and points of a file. It cannot tell who may see it, so the card is closed, and is
/// not exported until somebody opens it. A file that is cut short is refused.
fn show_import(file: &[u8]) -> Result<(), Refusal> {
    let (mut card, mut packed) = ([0; CARD_SIZE], vec![0; imurraqi::ppm_import_len(file)?]);
    let points = imurraqi::ppm_import(file, 600002, primaries::BT709, &mut card, &mut packed)?;
    let Facts {
        layout,
        width,
        height,
        item,
        access,
    } = imurraqi::card_read(&card, 2)?;
    let (depth, bytes) = (layout.depth, layout.bytes);
    print!("imported, {points} points of {depth} bits in {bytes} bytes: ");
    println!("item {item}, {width} by {height}, access {access}");
    // Of the last line, whose three paints lie side by side.
    let line = &packed[packed.len() - usize::from(width) * usize::from(bytes)..];
    let mut codes = vec![0; 3 * usize::from(width)];
    imurraqi::unpack_line(layout, line, &mut codes)?;
    for (name, point) in [("ochre", 0), ("white", 32), ("red earth", 64)] {
        let [r, g, b] = [0, 1, 2].map(|channel| codes[3 * point + channel]);
        println!("{name}: R'G'B' {r} {g} {b}");
    }
    if let Err(refusal @ Refusal::NOT_OPEN) = imurraqi::ppm_export_len(&card, 2) {
        println!("exported again: -{}", refusal.number());
    }
    if let Err(refusal @ Refusal::WRONG_PICTURE) = imurraqi::ppm_import_len(&file[..13]) {
        println!("cut short: -{}", refusal.number());
    }
    Ok(())
}

fn show(stack: &[u8], card: &[u8], packed: &[u8]) -> Result<Vec<u8>, Refusal> {
    let layout = show_item(stack, 203002)?;
    let mut descriptor = [0; DESCRIPTOR_SIZE];
    imurraqi::descriptor_write(layout, &mut descriptor)?;
    show_line(&descriptor)?;
    show_fields(layout)?;
    show_ends(layout)?;
    // A refusal is an answer too, in C minus its number: no card has the item.
    if let Err(refusal @ Refusal::NO_ITEM) = imurraqi::stack_find(stack, 2, 7) {
        println!("item 7: -{}", refusal.number());
    }
    show_early()?;
    show_tape()?;
    let file = show_export(card, packed)?;
    show_import(&file)?;
    Ok(file)
}

fn main() -> ExitCode {
    let mut given = std::env::args_os().skip(1);
    let mut load = || given.next().and_then(|name| std::fs::read(name).ok());
    let (Some(stack), Some(card), Some(packed)) = (load(), load(), load()) else {
        eprintln!("usage: example STACK CARD PACKED [PPM]");
        return ExitCode::from(2);
    };
    let file = match show(&stack, &card, &packed) {
        Ok(file) => file,
        Err(refusal) => {
            eprintln!("refused {}", refusal.number());
            return ExitCode::FAILURE;
        }
    };
    match given.next().map(|name| std::fs::write(name, file)) {
        Some(Err(error)) => {
            eprintln!("PPM: {error}");
            ExitCode::FAILURE
        }
        _ => ExitCode::SUCCESS,
    }
}
