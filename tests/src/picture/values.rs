//! Codes that are exported.

use crate::layouts::{self, group, is_grouped, packed_length, RANGE};
use crate::library::{Layout, Library};
use crate::plain::lines::{place, store_fields};
use crate::random::Random;
use crate::tally::{Flow, Tally};

use super::compare_exported;
use super::shots::{largest, open, random_bytes, random_codes, side_by_side, DEPTHS};

/// Every narrow code of every depth in every channel, in pictures of all codes at once.
pub fn narrow(library: &Library, tally: &mut Tally) -> Flow {
    for depth in DEPTHS {
        for primaries in 1..=4 {
            let layout = side_by_side(1, primaries, 1, depth);
            exported(library, tally, layout, each_once(depth))?;
        }
    }
    Flow::Continue(())
}

/// Every code of every model, range and depth in every channel, beside codes that take turns
/// and beside random ones.
pub fn every_code(library: &Library, tally: &mut Tally) -> Flow {
    let mut random = Random::new();
    for depth in DEPTHS {
        let sides = [largest(depth) + 1, 1];
        for range in [1, 2] {
            for primaries in 1..=4 {
                let layout = side_by_side(2, primaries, range, depth);
                exported(library, tally, layout, each_once(depth))?;
                let mut codes = random_codes(&mut random, sides, depth);
                for (code, random) in codes.iter_mut().skip(primaries.into()).step_by(9).zip(0..) {
                    *code = random;
                }
                exported(library, tally, layout, codes)?;
            }
        }
        exported(
            library,
            tally,
            side_by_side(1, 1, 2, depth),
            each_once(depth),
        )?;
    }
    for range in [1, 2] {
        for primaries in 1..=4 {
            let groups = (0..=u8::MAX).flat_map(|code| {
                let other = code.wrapping_mul(5).wrapping_add(3);
                [code, other, 255 - code, other.wrapping_mul(7) ^ primaries]
            });
            packed(
                library,
                tally,
                group(primaries, range),
                [256, 2],
                &groups.collect::<Vec<u8>>(),
            )?;
        }
    }
    Flow::Continue(())
}

/// Codes at and around the ends of both ranges in all combinations, and groups of them.
pub fn ends(library: &Library, tally: &mut Tally) -> Flow {
    for depth in DEPTHS {
        let ends = ends_of(depth);
        let points = ends.iter().flat_map(|&y| {
            let ends = ends.iter();
            ends.flat_map(move |&cb| ends_of(depth).map(move |cr| [y, cb, cr]))
        });
        let codes: Vec<u16> = points.flatten().collect();
        for range in [1, 2] {
            for primaries in 1..=4 {
                let layout = side_by_side(2, primaries, range, depth);
                exported(library, tally, layout, codes.clone())?;
            }
        }
    }
    let few = [0, 16, 128, 240, 255];
    let mut groups = Vec::new();
    for place in 0..5 * 5 * 5 * 5 {
        groups.extend([place / 125, place / 25 % 5, place / 5 % 5, place % 5].map(|end| few[end]));
    }
    for range in [1, 2] {
        for primaries in 1..=4 {
            packed(library, tally, group(primaries, range), [50, 25], &groups)?;
        }
    }
    Flow::Continue(())
}

fn ends_of(depth: u8) -> [u16; 9] {
    let s = 1 << (depth - 8);
    let m = largest(depth);
    [
        0,
        s,
        16 * s,
        16 * s + 1,
        128 * s,
        235 * s,
        240 * s,
        m - s,
        m,
    ]
}

/// Layouts of every size and depth, in all orders of the channels, with every model,
/// primaries and range. Those in the older full range are refused.
pub fn layouts(library: &Library, tally: &mut Tally) -> Flow {
    let mut random = Random::new();
    let layouts = layouts::chosen_in_all_colors().chain(layouts::groups());
    for (turn, layout) in layouts.enumerate() {
        let sides = [[2, 2], [1, 3], [4, 1]][turn % 3];
        let card = open(layout, sides, turn);
        let points = usize::from(card[12]) * usize::from(card[14]);
        let bytes = random_bytes(&mut random, packed_length(layout, points));
        let edition = if layout[RANGE] == 3 || is_grouped(layout) {
            4
        } else {
            2 + turn as u8 % 3
        };
        compare_exported(library, tally, &card, edition, &bytes)?;
    }
    Flow::Continue(())
}

/// A picture of points of all codes of a depth: each is there once in each channel.
fn each_once(depth: u8) -> Vec<u16> {
    let largest = largest(depth);
    (0..=largest)
        .flat_map(|code| [code, largest - code, (5 * code + 3) & largest])
        .collect()
}

/// Points of these codes, in a picture as wide as it may be.
fn exported(library: &Library, tally: &mut Tally, layout: Layout, codes: Vec<u16>) -> Flow {
    let points = codes.len() / 3;
    let mut bytes = vec![0; packed_length(layout, points)];
    store_fields(layout, &codes, &mut bytes, place);
    packed(library, tally, layout, [points as u16, 1], &bytes)
}

fn packed(
    library: &Library,
    tally: &mut Tally,
    layout: Layout,
    sides: [u16; 2],
    bytes: &[u8],
) -> Flow {
    compare_exported(library, tally, &open(layout, sides, 0), 4, bytes)
}
