//! Mistakes that only the largest picture shows, made in a program that is right for it: it
//! copies codes that stay as they are, and asks the reference once for each kind of group.

use std::collections::HashMap;

use reference::pictures;

use crate::card::SAMPLING;
use crate::guarded::Guarded;
use crate::library::picture::Imported;
use crate::library::Library;

use super::super::{Wrong, REFERENCE};

pub const RIGHT: Library = Library {
    ppm_export: exported,
    ppm_import: |ppm, _, _, made| imported(ppm, made),
    ..REFERENCE
};

pub const WRONG: &[Wrong] = &[
    (
        "counts of points in 24 bits",
        Library {
            ppm_export: |card, edition, packed, out| {
                exported(card, edition, packed, out) % (1 << 24)
            },
            ..RIGHT
        },
    ),
    (
        "counts of imported points in 24 bits",
        Library {
            ppm_import: |ppm, _, _, made| imported(ppm, made) % (1 << 24),
            ..RIGHT
        },
    ),
    (
        "fewer than 2^24 points exported",
        Library {
            ppm_export: |card, edition, packed, out| match exported(
                card,
                edition,
                packed,
                &mut out.clone(),
            ) {
                16_777_216 => -13,
                _ => exported(card, edition, packed, out),
            },
            ..RIGHT
        },
    ),
    (
        "the last line of groups left out",
        Library {
            ppm_export: |card, edition, packed, out| {
                let answer = exported(card, edition, packed, out);
                if card.elements()[SAMPLING] == 1 {
                    let last = out.length() - 3 * 4096;
                    out.output()[last..].fill(0);
                }
                answer
            },
            ..RIGHT
        },
    ),
    (
        "places in 25 bits",
        Library {
            ppm_import: |ppm, _, _, made| {
                let answer = imported(ppm, made);
                made.packed.output().copy_within(..1 << 24, 1 << 25);
                answer
            },
            ..RIGHT
        },
    ),
];

const HEADER: &[u8] = b"P6\n4096 4096\n255\n";

fn exported(
    card: &mut Guarded<u8>,
    edition: u8,
    packed: &mut Guarded<u8>,
    out: &mut Guarded<u8>,
) -> i64 {
    let (header, points) = out.output().split_at_mut(HEADER.len());
    header.copy_from_slice(HEADER);
    match card.elements()[SAMPLING] {
        1 => groups(card.elements(), edition, packed.elements(), points),
        _ => points.copy_from_slice(packed.elements()),
    }
    1 << 24
}

fn groups(card: &[u8], edition: u8, packed: &[u8], points: &mut [u8]) {
    let mut alone = card.to_vec();
    alone[12..16].copy_from_slice(&[2, 0, 1, 0]);
    let mut known = HashMap::new();
    let (groups, _) = packed.as_chunks::<4>();
    for (group, points) in groups.iter().zip(points.chunks_mut(6)) {
        let made: &mut [u8; 17] = known.entry(group).or_insert_with(|| {
            let mut file = [0; 17];
            let answer = pictures::export(&alone, edition, group, &mut file);
            assert_eq!(answer.ok(), Some(2));
            file
        });
        points.copy_from_slice(&made[11..]);
    }
}

fn imported(ppm: &mut Guarded<u8>, made: &mut Imported) -> i64 {
    let points = &ppm.elements()[HEADER.len()..];
    made.packed.output().copy_from_slice(points);
    1 << 24
}
