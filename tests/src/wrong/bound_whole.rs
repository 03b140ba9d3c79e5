//! Programs for the part of the bound that goes through all points of one row. They must be
//! quick, so they copy codes: nothing moves but where it is said.

use reference::bound::Way;
use reference::refusal::Refusal;

use crate::clamped::Clamped;
use crate::color::bound::examples::FARTHEST;
use crate::guarded::Guarded;
use crate::library::{Conversion, Convert, Library, CUTS};
use crate::quantization::refused;

use super::{Wrong, REFERENCE};

/// A point, and what it comes back as.
type Move = (Way, [u16; 3], [u16; 3]);

/// A point of each pair of ranges moves as far as it may. The part must pass this one, so
/// that of those below it catches the mistake and nothing else.
pub const RIGHT: Library = copying(|_, conversion, codes, out| back(conversion, codes, out, &[]));

/// What this point of this way has become comes back as that.
macro_rules! moving {
    ($way:expr, $given:expr => $back:expr) => {
        copying(|_, conversion, codes, out| back(conversion, codes, out, &[($way, $given, $back)]))
    };
}

pub const WRONG: &[Wrong] = &[
    (
        "nothing moves",
        copying(|_, _, codes, out| copied(codes, out)),
    ),
    (
        "full through narrow moves by 1",
        moving!([1, 8, 2, 1], [0, 102, 255] => [0, 102, 254]),
    ),
    // The last points of narrow and of full R'G'B', and one in the midst.
    (
        "narrow white moves by 2",
        moving!([1, 8, 1, 1], [235; 3] => [235, 235, 233]),
    ),
    (
        "white moves by 3 through narrow",
        moving!([1, 8, 2, 1], [255; 3] => [252, 255, 255]),
    ),
    (
        "one grey moves by 2 through full",
        moving!([1, 8, 1, 2], [100; 3] => [100, 102, 100]),
    ),
    (
        "lines under 4,096 points refused",
        copying(|_, conversion, codes, out| match codes.length() / 3 {
            4096 => back(conversion, codes, out, &[]),
            _ => refused(Refusal::Length),
        }),
    ),
];

const fn copying(ycbcr_to_rgb: Convert) -> Library {
    Library {
        rgb_to_ycbcr: |_, _, codes, out| copied(codes, out),
        ycbcr_to_rgb,
        ..REFERENCE
    }
}

fn copied(codes: &Guarded<u16>, out: &mut Clamped<u16>) -> i64 {
    out.output().copy_from_slice(codes.elements());
    out.cuts[CUTS] = 0;
    codes.length() as i64 / 3
}

/// Copies, but for these points and then for the examples that move farthest.
fn back(
    [primaries, depth, second, first]: Conversion,
    codes: &Guarded<u16>,
    out: &mut Clamped<u16>,
    moves: &[Move],
) -> i64 {
    let count = copied(codes, out);
    let farthest = FARTHEST.map(|example| (example.way, example.given, example.back));
    let moves: Vec<&Move> = moves
        .iter()
        .chain(&farthest)
        .filter(|(way, ..)| *way == [primaries, depth, first, second])
        .collect();
    let (points, _) = out.output().as_chunks_mut();
    for point in points {
        if let Some((_, _, back)) = moves.iter().find(|(_, given, _)| given == point) {
            *point = *back;
        }
    }
    count
}
