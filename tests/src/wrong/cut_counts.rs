//! Mistakes in counting the cuts of a line, of which each place is known to be cut or not.

use crate::library::Quantize;
use crate::plain::color::{Pieces, PIECES};
use crate::plain::lines::{counted, single};
use crate::plain::quantization::{all, half_up, line, rounded};

use super::converts::{by, converts};
use super::encode::{encodes, encodes_points};
use super::Wrong;

/// Points that are worked out at a time.
const TURN: usize = 8;

const QUANTIZE: Quantize = |setting, value, cuts| rounded(setting, value, cuts, line, half_up);

/// Each of the mistakes, made in encoding a line and in each direction of converting.
macro_rules! miscounted {
    ($($mistake:literal: $count:expr,)*) => {
        pub const ENCODING: &[Wrong] = &[$(
            encodes(concat!($mistake, ", encoding"), |layout, values, out| {
                counted(layout, values, out, QUANTIZE, $count)
            }),
        )*];

        pub const CONVERTING: &[Wrong] = [$(
            converts($mistake, by!(Pieces { count: $count, ..PIECES })),
        )*]
        .as_flattened();
    };
}

miscounted! {
    // Which points.
    "cuts of the first point only": |cut| all(&cut[..cut.len().min(3)]),
    "cuts of the last point only": |cut| all(&cut[cut.len().saturating_sub(3)..]),
    "cuts of the last point left out": |cut| all(&cut[..cut.len().saturating_sub(3)]),
    "cuts of point 4,096 left out": |cut| all(&cut[..cut.len().min(3 * 4095)]),
    // Which channels.
    "cuts of channel 0 only": |cut| channel(cut, 0),
    "cuts of channel 1 only": |cut| channel(cut, 1),
    "cuts of channel 2 left out": |cut| channel(cut, 0) + channel(cut, 1),
    // What is counted.
    "the count of points for that of cuts": |cut| cut.len() / 3,
    "the count of codes for that of cuts": |cut| cut.len(),
    "codes that are not cut counted": |cut| cut.len() - all(cut),
    "cut points counted, not codes": |cut| cut.chunks(3).filter(|cut| all(cut) > 0).count(),
    "1 for any number of cuts": |cut| all(cut).min(1),
    // Turns of eight points.
    "the overlap of the last turn counted twice": |cut| all(cut) + all(overlap(cut)),
    "the overlap of the last turn left out": |cut| all(cut) - all(overlap(cut)),
    "points after the last whole turn left out": |cut| all(&cut[..3 * whole_turns(cut)]),
    "only the last turn counted": |cut| all(&cut[cut.len().saturating_sub(3 * TURN)..]),
    "a short line counted as a whole turn": |cut| {
        let missing = TURN.saturating_sub(cut.len() / 3);
        all(cut) + missing * all(&cut[cut.len().saturating_sub(3)..])
    },
    "a short line not counted": |cut| if cut.len() < 3 * TURN { 0 } else { all(cut) },
    "one cut counted in each turn": |cut| {
        cut.chunks(3 * TURN).filter(|cut| all(cut) > 0).count()
    },
    // Sizes of the number.
    "counted in a byte": |cut| all(cut) % 256,
    "at most 4,096 counted": |cut| all(cut).min(4096),
}

/// The same for a point, where they can be made.
macro_rules! miscounted_points {
    ($($mistake:literal: $count:expr,)*) => {
        pub const ENCODING_A_POINT: &[Wrong] = &[$(
            encodes_points(concat!($mistake, ", a point"), |layout, values, out| {
                single(layout, || counted(layout, &values, out, QUANTIZE, $count))
            }),
        )*];
    };
}

miscounted_points! {
    "cuts of channel 0 only": |cut| channel(cut, 0),
    "cuts of channel 1 left out": |cut| channel(cut, 0) + channel(cut, 2),
    "1 for any number of cuts": |cut| all(cut).min(1),
    "the count of points for that of cuts": |cut| cut.len() / 3,
    "codes that are not cut counted": |cut| cut.len() - all(cut),
    "counted as a whole turn": |cut| TURN * all(cut),
}

/// The cuts of one channel.
fn channel(cut: &[bool], channel: usize) -> usize {
    cut.iter()
        .skip(channel)
        .step_by(3)
        .filter(|&&cut| cut)
        .count()
}

/// The points of all whole turns.
fn whole_turns(cut: &[bool]) -> usize {
    cut.len() / 3 / TURN * TURN
}

/// The places that the last turn, of the line's last eight points, works out again.
fn overlap(cut: &[bool]) -> &[bool] {
    let (points, whole) = (cut.len() / 3, whole_turns(cut));
    if points > TURN && points > whole {
        &cut[3 * (points - TURN)..3 * whole]
    } else {
        &[]
    }
}
