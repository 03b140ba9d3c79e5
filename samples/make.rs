//! Makes the sample stack and the stacks on which the gate runs the programs, each with
//! the list that the reference gives for it; and the sample picture, with the file that the
//! reference exports of it.

use std::fs;

use reference::card::{self, Facts, CLOSED, COMMUNITY, OPEN, SIZE};
use reference::layout::Numbers;
use reference::stack::{self, MOST_CARDS};
use reference::{color, lines, pictures};

type Card = [u8; SIZE];

/// Y'CbCr, BT.709, narrow, 8 bits in three bytes.
const BITS_8: Numbers = [2, 1, 1, 8, 3, 0, 8, 16, 0];

/// Y'CbCr, BT.601 EBU, narrow, 10 bits in four bytes.
const BITS_10: Numbers = [2, 2, 1, 10, 4, 0, 10, 20, 0];

/// R'G'B', BT.2020, full, 12 bits in five bytes.
const BITS_12: Numbers = [1, 4, 2, 12, 5, 24, 12, 0, 0];

const LAYOUTS: [Numbers; 3] = [BITS_8, BITS_10, BITS_12];

/// An early capture by the old JFIF rule: Y'CbCr, BT.601 EBU, range 3, 8 bits in three bytes.
const EARLY_8: Numbers = [2, 2, 3, 8, 3, 0, 8, 16, 0];

/// An early capture by BT.2100-0: R'G'B', BT.2020, range 3, 12 bits in five bytes.
const EARLY_12: Numbers = [1, 4, 3, 12, 5, 24, 12, 0, 0];

/// From the old tape deck: Y'CbCr, BT.601 EBU, 8 bits in groups of four bytes, narrow and in
/// range 3.
const GROUPS: Numbers = [2, 2, 1, 8, 4, 0, 0, 0, 1];
const EARLY_GROUPS: Numbers = [2, 2, 3, 8, 4, 0, 0, 0, 1];

/// A later edition than the newest, at which stacks are listed.
const LATER: u8 = card::NEWEST + 1;

/// Places of a card's bytes.
const LEAST: usize = 0;
const WRITER: usize = 1;
const DEPTH: usize = 5;
const WIDTH: usize = 12;
const ACCESS: usize = 24;

fn main() {
    let paper = [written(2, BITS_10, 720, 576, 7, OPEN), [0; SIZE]].concat();
    let too_long = [written(2, BITS_8, 1, 1, 1, OPEN); MOST_CARDS + 1];
    store("crates/stack_list/stdin", &paper);
    store("crates/stack_list/stdout", stack::list(&paper));
    store_cases(&[
        ("empty", Vec::new()),
        ("refused", [&paper[..], &[0]].concat()),
        ("too_long", too_long.concat()),
        ("full", full().concat()),
    ]);

    let archive = archive().concat();
    store("samples/archive.stack", &archive);
    store("samples/archive.list", stack::list(&archive));
    store("crates/stack_find_cases/stdin", &archive);

    let card = written(2, CHART, CHART_WIDTH, CHART_HEIGHT, 600_001, OPEN);
    let packed = chart();
    store("samples/chart.card", card);
    store("samples/chart.packed", &packed);
    let mut file = vec![0; pictures::export_len(&card, 2).expect("an open card")];
    pictures::export(&card, 2, &packed, &mut file).expect("all of the chart's points");
    store("target/reference/chart.ppm", file);
}

fn store(file: &str, bytes: impl AsRef<[u8]>) {
    fs::write(file, bytes).unwrap_or_else(|error| panic!("{file}: {error}"));
}

/// The files that stack_list_cases lists, their names as its arguments, and what it must
/// print: each list under its file's name.
fn store_cases(cases: &[(&str, Vec<u8>)]) {
    let mut args = String::new();
    let mut stdout = String::new();
    for (name, stack) in cases {
        store(&format!("crates/stack_list_cases/data/{name}"), stack);
        args += &format!("{name}\n");
        stdout += &format!("{name}\n{}", stack::list(stack));
    }
    store("crates/stack_list_cases/args", args);
    store("crates/stack_list_cases/stdout", stdout);
}

/// A card as an edition writes it.
fn written(edition: u8, layout: Numbers, width: u16, height: u16, item: u64, access: u8) -> Card {
    let facts = Facts {
        layout,
        width,
        height,
        item,
        access,
    };
    let mut card = [0; SIZE];
    card::write(edition, facts, &mut card).expect("facts that the edition writes");
    card
}

/// The card with some bytes changed.
fn changed(mut card: Card, changes: &[(usize, u8)]) -> Card {
    for &(place, byte) in changes {
        card[place] = byte;
    }
    card
}

/// A small stack as an archive might have it; samples/README.md says what each card is.
fn archive() -> Vec<Card> {
    vec![
        written(1, BITS_8, 720, 576, 100_417, CLOSED),
        written(2, BITS_10, 720, 576, 100_418, CLOSED),
        written(2, BITS_10, 720, 486, 100_419, COMMUNITY),
        written(2, BITS_8, 1920, 1080, 203_001, OPEN),
        written(2, BITS_10, 1920, 1080, 203_002, COMMUNITY),
        written(2, BITS_12, 4096, 2160, 305_550, CLOSED),
        written(2, BITS_12, 4096, 2160, 305_551, OPEN),
        changed(written(2, BITS_8, 1920, 1080, 203_003, OPEN), &[(DEPTH, 9)]),
        changed(
            written(2, BITS_10, 1920, 1080, 412_008, OPEN),
            &[(WRITER, LATER), (ACCESS, 4), (25, 1)],
        ),
        changed(
            written(2, BITS_12, 4096, 2160, 412_009, OPEN),
            &[(LEAST, LATER), (WRITER, LATER)],
        ),
        changed(written(2, BITS_8, 720, 576, 100_420, OPEN), &[(ACCESS, 3)]),
        written(3, EARLY_8, 720, 576, 117, COMMUNITY),
        written(4, GROUPS, 720, 576, 118, COMMUNITY),
    ]
}

/// Y'CbCr, BT.709, narrow, 10 bits in four bytes.
const CHART: Numbers = [2, 1, 1, 10, 4, 0, 10, 20, 0];
const CHART_WIDTH: u16 = 96;
const CHART_HEIGHT: u16 = 64;

/// A color in full-range R'G'B' of 10 bits.
type Color = [u16; 3];

/// 75 % of full.
const BAR: u16 = 767;

/// Eight bars of 75 % color, from white to black.
const BARS: [Color; 8] = [
    [BAR, BAR, BAR],
    [BAR, BAR, 0],
    [0, BAR, BAR],
    [0, BAR, 0],
    [BAR, 0, BAR],
    [BAR, 0, 0],
    [0, 0, BAR],
    [0, 0, 0],
];

/// Body paint: yellow ochre, white pipeclay and red earth.
const PAINTS: [Color; 3] = [[818, 477, 136], [951, 923, 859], [570, 249, 160]];

/// A color chart: bars, a ramp from black to white, and paints.
fn chart() -> Vec<u8> {
    let heights = [(32, 0), (12, 1), (20, 2)];
    let bands = heights
        .into_iter()
        .flat_map(|(lines, band)| (0..lines).map(move |_| band));
    bands
        .flat_map(|band| {
            line(|x| match band {
                0 => BARS[x / 12],
                1 => [(1023 * x / 95) as u16; 3],
                _ => PAINTS[x / 32],
            })
        })
        .collect()
}

/// The packed points of a line, from the color of each.
fn line(color: impl Fn(usize) -> Color) -> Vec<u8> {
    let points = usize::from(CHART_WIDTH);
    let rgb: Vec<u16> = (0..points).flat_map(color).collect();
    let (mut ycbcr, mut packed) = (vec![0; rgb.len()], vec![0; 4 * points]);
    color::rgb_to_ycbcr([1, 10, 2, 1], &rgb, &mut ycbcr).expect("a line of codes");
    lines::pack_line(CHART, &ycbcr, &mut packed).expect("a line of codes");
    packed
}

/// As many cards as a stack may have, of every kind that the newest edition tells apart.
fn full() -> Vec<Card> {
    let plain = written(2, BITS_10, 720, 576, 7, OPEN);
    let first = written(1, BITS_8, 720, 576, 7, CLOSED);
    let bits_12 = written(2, BITS_12, 720, 576, 7, OPEN);
    let early = written(3, EARLY_8, 720, 576, 7, OPEN);
    let groups = written(4, GROUPS, 720, 576, 7, OPEN);
    let mut cards = Vec::new();

    // Each layout and access, written at each edition that has both.
    for access in [CLOSED, COMMUNITY, OPEN] {
        for layout in LAYOUTS {
            for edition in 2..=4 {
                cards.push(written(edition, layout, 1920, 1080, 11, access));
            }
        }
        for layout in [EARLY_8, EARLY_12] {
            for edition in 3..=4 {
                cards.push(written(edition, layout, 1920, 1080, 11, access));
            }
        }
        cards.push(written(4, GROUPS, 1920, 1080, 11, access));
        cards.push(written(4, EARLY_GROUPS, 1920, 1080, 11, access));
    }
    cards.push(written(1, BITS_8, 1920, 1080, 12, CLOSED));
    cards.push(written(1, BITS_10, 1920, 1080, 12, CLOSED));

    // Sides and items of every number of digits, up to the greatest.
    for side in [1, 9, 10, 99, 100, 999, 1000, 4095, 4096] {
        cards.push(written(2, BITS_8, side, 1, 13, COMMUNITY));
        cards.push(written(2, BITS_8, 1, side, 13, COMMUNITY));
        cards.push(written(2, BITS_12, side, 4097 - side, 13, OPEN));
    }
    for digits in 1..=19 {
        let power = 10_u64.pow(digits);
        cards.push(written(2, BITS_10, 4096, 4096, power - 1, COMMUNITY));
        cards.push(written(2, BITS_10, 4096, 4096, power, COMMUNITY));
    }
    cards.push(written(2, BITS_10, 4096, 4096, u64::MAX, COMMUNITY));

    // Written later than it is read: a known access as it stands, any other closed, and the
    // bytes behind it not looked at. Written at 2 or later, and not later than it is read, only
    // the three are read, with zeros behind.
    for access in 0..=255 {
        cards.push(changed(plain, &[(ACCESS, access)]));
        cards.push(changed(
            plain,
            &[(WRITER, LATER), (ACCESS, access), (31, access)],
        ));
    }
    for access in [0, 1, 2, 3, 4, 255] {
        cards.push(changed(plain, &[(WRITER, 3), (ACCESS, access)]));
        cards.push(changed(plain, &[(WRITER, 4), (ACCESS, access)]));
        cards.push(changed(early, &[(ACCESS, access)]));
        cards.push(changed(groups, &[(ACCESS, access)]));
    }
    for place in ACCESS..SIZE {
        cards.push(changed(first, &[(place, 1)]));
        cards.push(changed(plain, &[(place, 1)]));
        cards.push(changed(early, &[(place, 1)]));
        cards.push(changed(groups, &[(place, 1)]));
        cards.push(changed(plain, &[(WRITER, 255), (place, 255)]));
    }

    // Byte 0 and the writer's edition, each small number and the greatest.
    for least in [0, 1, 2, 3, 4, 255] {
        for writer in [0, 1, 2, 3, 4, 255] {
            for card in [first, plain, bits_12, early, groups] {
                cards.push(changed(card, &[(LEAST, least), (WRITER, writer)]));
            }
        }
    }

    // Odd and even widths of groups, also with an access that is none.
    for width in [1, 2, 719, 721, 4095, 4096_u16] {
        let [low, high] = width.to_le_bytes();
        for access in [OPEN, 3] {
            cards.push(changed(
                groups,
                &[(WIDTH, low), (WIDTH + 1, high), (ACCESS, access)],
            ));
        }
    }

    // Every byte of the front wrong by one bit, until the stack is full.
    for bit in [0, 7, 3, 1, 2, 4, 5, 6] {
        for place in 0..ACCESS {
            for card in [plain, groups] {
                cards.push(changed(card, &[(place, card[place] ^ 1 << bit)]));
            }
        }
    }
    assert!(cards.len() >= MOST_CARDS, "{} cards", cards.len());
    cards.truncate(MOST_CARDS);
    cards
}
