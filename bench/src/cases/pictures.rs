//! Pictures of 1,920 by 1,080 points, smooth and random, exported and imported, and what is
//! told of their lengths. Exporting Y'CbCr stands also beside converting the same points as
//! lines of codes, and copying them.

use super::cards::{any_facts, card};
use super::{label, MANY};
use crate::case::{Case, Label, Shots};
use crate::inputs;
use crate::library;
use crate::library::lines::ycbcr_to_rgb;
use crate::plain;
use crate::plain::cards::{Facts, BYTES, NEWEST, OPEN};
use crate::plain::layout::{packed_bytes, Numbers};
use crate::random::Random;
use crate::side::Side;

/// The sides of a picture, and of the smaller ones into which its points are cut.
const SIDES: [u16; 2] = [1920, 1080];
const SMALL: [u16; 2] = [64, 64];

/// Full and narrow R'G'B' of 8 bits, narrow Y'CbCr of 10, and narrow groups.
const EXPORTED: [(&str, Numbers); 4] = [
    ("R'G'B', 8 bits, full", [1, 1, 2, 8, 3, 0, 8, 16, 0]),
    ("R'G'B', 8 bits, narrow", [1, 1, 1, 8, 3, 0, 8, 16, 0]),
    (YCBCR, [2, 1, 1, 10, 4, 0, 10, 20, 0]),
    ("groups, 8 bits, narrow", [2, 1, 1, 8, 4, 0, 0, 0, 1]),
];

const YCBCR: &str = "Y'CbCr, 10 bits, narrow";

/// Full R'G'B' as it is imported.
const IMPORTED: [(&str, Numbers); 2] = [
    ("8 bits", [1, 1, 2, 8, 3, 0, 8, 16, 0]),
    ("12 bits", [1, 4, 2, 12, 5, 0, 12, 24, 0]),
];

/// A card and the packed points, and a file.
type Shot = (Vec<u8>, Vec<u8>);
type File = Vec<u8>;

/// A card and packed points that are made.
type Made = (Vec<u8>, Vec<u8>);

pub fn cases() -> Result<Vec<Case>, String> {
    let mut cases = Vec::new();
    for (name, layout) in EXPORTED {
        for (input, line) in lines(layout) {
            cases.push(export(label("ppm_export", name, input), layout, &line)?);
            if name == YCBCR {
                cases.push(beside_a_conversion(input, layout, &line)?);
            }
        }
    }
    cases.push(export_len()?);
    for (name, layout) in IMPORTED {
        for (input, line) in lines(layout) {
            cases.push(import(label("ppm_import", name, input), layout, &line)?);
        }
    }
    cases.push(import_len()?);
    Ok(cases)
}

/// The packed bytes of which a picture's points are, again and again.
fn lines(layout: Numbers) -> [(&'static str, Vec<u8>); 2] {
    [
        ("smooth", inputs::smooth(layout).packed),
        ("random", inputs::random(layout).packed),
    ]
}

fn points([width, height]: [u16; 2]) -> usize {
    usize::from(width) * usize::from(height)
}

/// A picture of these sides from a place in its line on.
fn shot(layout: Numbers, sides: [u16; 2], line: &[u8], from: usize) -> Shot {
    let card = card(Facts {
        layout,
        width: sides[0],
        height: sides[1],
        item: 7,
        access: OPEN,
    });
    let bytes = line.iter().cycle().skip(from % line.len());
    let packed = bytes.take(packed_bytes(layout, points(sides)));
    (card, packed.copied().collect())
}

/// Room for a picture's file.
fn file(sides: [u16; 2], [_, _, _, depth, ..]: Numbers) -> File {
    let largest = (1 << depth) - 1;
    let header = format!("P6\n{} {}\n{largest}\n", sides[0], sides[1]);
    let each = if depth == 8 { 3 } else { 6 };
    vec![0; header.len() + each * points(sides)]
}

/// The whole picture, and the same points in smaller ones.
fn shots<I>(layout: Numbers, line: &[u8], given: impl Fn(Shot) -> I) -> Shots<I> {
    let small = points(SIDES) / points(SMALL);
    let bytes = packed_bytes(layout, points(SMALL));
    Shots {
        whole: given(shot(layout, SIDES, line, 0)),
        small: (0..small)
            .map(|place| given(shot(layout, SMALL, line, place * bytes)))
            .collect(),
        points: [points(SIDES), points(SMALL)],
    }
}

fn export(label: Label, layout: Numbers, line: &[u8]) -> Result<Case, String> {
    let shots = shots(layout, line, |shot| shot);
    // For the community, too short a card, too few points.
    let (card, packed) = shot(layout, SMALL, line, 0);
    let mut community = card.clone();
    community[24] = 1;
    let refused = [
        (community, packed.clone()),
        (card[1..].to_vec(), packed.clone()),
        (card, packed[1..].to_vec()),
    ];
    Case::pictures(
        label,
        shots,
        &refused,
        [file(SIDES, layout), file(SMALL, layout)],
        [
            |(card, packed), out| library::pictures::export(card, NEWEST, packed, out),
            |(card, packed), out| plain::pictures::export(card, NEWEST, packed, out),
        ],
    )
}

/// Exporting beside the library's own conversion of the same points, as lines of codes, and
/// a copy of each line.
fn beside_a_conversion(input: &'static str, layout: Numbers, line: &[u8]) -> Result<Case, String> {
    let [_, primaries, range, depth, ..] = layout;
    let (card, packed) = shot(layout, SIDES, line, 0);
    let width = usize::from(SIDES[0]);
    let mut codes = vec![0; 3 * points(SIDES)];
    for (packed, codes) in packed
        .chunks(packed_bytes(layout, width))
        .zip(codes.chunks_mut(3 * width))
    {
        plain::lines::unpack_line(layout, packed, codes);
    }
    let mut out = file(SIDES, layout);
    let exporting = Side::long(points(SIDES), move || {
        library::pictures::export(&card, NEWEST, &packed, &mut out)
    });
    let mut copied = vec![0; codes.len()];
    let mut made = vec![0; 3 * width];
    let conversion = [primaries, depth, range, 2];
    let converting = Side::long(points(SIDES), move || {
        let lines = codes.chunks(3 * width).zip(copied.chunks_mut(3 * width));
        let counts = lines.map(|(codes, copied)| {
            let count = ycbcr_to_rgb(conversion, codes, &mut made, &mut 0);
            copied.copy_from_slice(&made);
            count
        });
        counts.sum()
    });
    let setting = format!("{YCBCR}{}", Case::BESIDE);
    Case::two_sides(
        label("ppm_export", &setting, input),
        [exporting, converting],
    )
}

fn import(label: Label, layout: Numbers, line: &[u8]) -> Result<Case, String> {
    let imported = |(card, packed): Shot| -> File {
        let sides = [12, 14].map(|place| u16::from_le_bytes([card[place], card[place + 1]]));
        let mut file = file(sides, layout);
        plain::pictures::export(&card, NEWEST, &packed, &mut file);
        file
    };
    let shots = shots(layout, line, imported);
    let small = shots.small[0].clone();
    let room = |sides| -> Made { (vec![0; BYTES], vec![0; packed_bytes(layout, points(sides))]) };
    // No picture, a header cut short, too few points.
    let refused = [
        Vec::new(),
        small[..8].to_vec(),
        small[..small.len() - 1].to_vec(),
    ];
    Case::pictures(
        label,
        shots,
        &refused,
        [room(SIDES), room(SMALL)],
        [
            |ppm, (card, packed)| library::pictures::import(ppm, 7, 1, card, packed),
            |ppm, (card, packed)| plain::pictures::import(ppm, 7, 1, card, packed),
        ],
    )
}

/// Open cards of any facts but the older full range.
fn export_len() -> Result<Case, String> {
    let mut random = Random::new();
    let open = |mut facts: Facts| {
        facts.access = OPEN;
        facts.layout[2] = 1 + facts.layout[2] % 2;
        card(facts)
    };
    let cards: Vec<Vec<u8>> = (1..=MANY as u64)
        .map(|item| open(any_facts(&mut random, item)))
        .collect();
    let mut community = cards[0].clone();
    community[24] = 1;
    let refused = [community, cards[0][1..].to_vec(), vec![0; BYTES]];
    Case::calls(
        label("ppm_export_len", "32 bytes", "any facts"),
        cards,
        &refused,
        (),
        [
            |card, ()| library::pictures::export_len(card, NEWEST),
            |card, ()| plain::pictures::export_len(card, NEWEST),
        ],
    )
}

/// Headers of any sides and depth.
fn import_len() -> Result<Case, String> {
    let mut random = Random::new();
    let headers: Vec<File> = (0..MANY)
        .map(|_| {
            let [width, height] = [0; 2].map(|_: u16| 1 + random.code(12));
            let largest = (1_u16 << random.depth()) - 1;
            format!("P6\n{width} {height}\n{largest}\n").into_bytes()
        })
        .collect();
    let refused = [
        b"P5\n1 1\n255\n".to_vec(),
        b"P6\n4097 1\n255\n".to_vec(),
        b"P6\n1 1\n256\n".to_vec(),
        Vec::new(),
    ];
    Case::calls(
        label("ppm_import_len", "header", "any sides"),
        headers,
        &refused,
        (),
        [
            |ppm, ()| library::pictures::import_len(ppm),
            |ppm, ()| plain::pictures::import_len(ppm),
        ],
    )
}
