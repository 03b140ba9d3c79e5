//! Mistakes that only groups show.

use crate::clamped::Clamped;
use crate::guarded::{Element, Guarded};
use crate::layouts::{is_grouped, OFFSETS, OWN, SAMPLING};
use crate::library::Layout;
use crate::plain::lines::{self, decoded_by, encoded_by, looked_at, Channel, Making, Place};
use crate::plain::quantization::{all, line};
use crate::plain::PLAIN;

pub mod cards;
pub mod colors;
pub mod history;
pub mod layouts;
pub mod orders;
pub mod others;
pub mod reading;
pub mod refusals;
pub mod turns;

/// A mistake that is made in the elements of each group alone.
type Change<T> = fn(&mut [T], &[T]);

/// What is asked of a function on lines.
struct Asked {
    layout: Layout,
    /// Packed bytes, and codes or floats.
    bytes: usize,
    elements: usize,
    /// The refusal of an element that may not be, if there is one.
    bad: Option<i64>,
}

impl Asked {
    /// Whether these are whole points, of an odd count.
    fn is_odd(&self) -> bool {
        self.elements % 6 == 3
    }
}

/// Another answer for the right one.
type Answer = fn(i64, &Asked) -> i64;

// Those that every function on lines of groups may give.

fn count_of_groups(answer: i64, _: &Asked) -> i64 {
    match answer {
        0.. => answer / 2,
        _ => answer,
    }
}

fn count_of_bytes(answer: i64, asked: &Asked) -> i64 {
    match answer {
        0.. => asked.bytes as i64,
        _ => answer,
    }
}

fn at_most_2048(answer: i64, _: &Asked) -> i64 {
    match answer {
        2049.. => -13,
        _ => answer,
    }
}

fn groups_refused(answer: i64, _: &Asked) -> i64 {
    match answer {
        0.. => -9,
        _ => answer,
    }
}

/// The place of a bit of a code of a group, if its codes lie in these bytes.
fn placed(layout: Layout, code: usize, bit: usize, bytes: [usize; 6]) -> usize {
    match is_grouped(layout) {
        true => 8 * bytes[code] + bit,
        false => lines::place(layout, code, bit),
    }
}

/// These codes of a group, and of a point those that are right.
fn of_groups(layout: Layout, codes: &'static [usize]) -> &'static [usize] {
    match is_grouped(layout) {
        true => codes,
        false => looked_at(layout),
    }
}

/// The channel of a code of a group by this list.
fn channelled(layout: Layout, code: usize, channels: [u8; 6]) -> u8 {
    match is_grouped(layout) {
        true => channels[code],
        false => lines::channel(layout, code),
    }
}

fn decoded(
    layout: Layout,
    packed: &[u8],
    out: &mut Guarded<u32>,
    place: Place,
    channel: Channel,
) -> i64 {
    let divided = (line as _, (|p, q| p / q) as _);
    decoded_by(layout, packed, out, divided, (place, channel))
}

fn encoded(layout: Layout, values: &[f32], out: &mut Clamped<u8>, making: Making) -> i64 {
    encoded_by(layout, values, out, (PLAIN.quantize, all), making)
}

/// Makes a call, and changes the elements of each group that it has made. The change is
/// given what they held before.
fn changed<T: Element>(
    layout: Layout,
    out: &mut Guarded<T>,
    call: impl FnOnce(&mut Guarded<T>) -> i64,
    change: Change<T>,
) -> i64 {
    let before = out.clone();
    let answer = call(out);
    if answer > 0 && is_grouped(layout) {
        let before = before.elements().chunks(6);
        for (made, before) in out.output().chunks_mut(6).zip(before) {
            change(made, before);
        }
    }
    answer
}

/// The elements of a line with those of each whole group changed.
fn given<T: Copy>(layout: Layout, elements: &[T], change: fn(&mut [T])) -> Vec<T> {
    let mut elements = elements.to_vec();
    if is_grouped(layout) {
        elements.chunks_exact_mut(6).for_each(change);
    }
    elements
}

/// Makes a call, but gives another answer where groups are asked for. If that is a
/// refusal, nothing is stored.
fn answered<O: Clone>(
    asked: &Asked,
    out: &mut O,
    call: impl Fn(&mut O) -> i64,
    answer: Answer,
) -> i64 {
    if !is_grouped(asked.layout) {
        return call(out);
    }
    let right = call(&mut out.clone());
    let wrong = answer(right, asked);
    if right < 0 || wrong >= 0 {
        call(out);
    }
    wrong
}

/// A group as a point of the same bytes.
fn as_points(mut layout: Layout) -> Layout {
    if is_grouped(layout) {
        layout[OFFSETS..=SAMPLING].copy_from_slice(&[8, 0, 16, OWN]);
    }
    layout
}
