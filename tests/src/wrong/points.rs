//! What mistakes in lines share.

use reference::lines::Counts;
use reference::refusal::Refusal;

use crate::clamped::{counted, Clamped};
use crate::guarded::{Element, Guarded};
use crate::layouts::{bytes_a_point, elements_in, LEGACY, RANGE};
use crate::library::{Layout, Slot};
use crate::plain::field::held;
use crate::plain::layout::is_valid;
use crate::plain::lines::{load_fields, place, store_fields, Place};

/// Makes a call and takes back what it has stored from a place on.
pub fn keeping_from<T: Element>(
    place: usize,
    out: &mut Guarded<T>,
    call: impl FnOnce(&mut Guarded<T>) -> i64,
) -> i64 {
    let before = out.clone();
    let answer = call(out);
    take_back(place, out, &before);
    answer
}

/// The same of a call that clamps. Its cuts stay.
pub fn keeping_clamped_from<T: Element>(
    place: usize,
    out: &mut Clamped<T>,
    call: impl FnOnce(&mut Clamped<T>) -> i64,
) -> i64 {
    let before = out.made.clone();
    let answer = call(out);
    take_back(place, out, &before);
    answer
}

fn take_back<T: Element>(place: usize, out: &mut Guarded<T>, before: &Guarded<T>) {
    let kept = place.min(out.length());
    out.output()[kept..].copy_from_slice(&before.elements()[kept..]);
}

/// The answer to a line whose pieces are answered one after the other, up to the first
/// refusal.
pub fn together(pieces: impl IntoIterator<Item = Result<Counts, Refusal>>, cuts: &mut Slot) -> i64 {
    let sum = pieces
        .into_iter()
        .try_fold(Counts::default(), |sum, piece| {
            piece.map(|piece| Counts {
                points: sum.points + piece.points,
                cuts: sum.cuts + piece.cuts,
            })
        });
    counted(sum, cuts)
}

pub fn neighbours_place(layout: Layout, channel: usize, bit: usize) -> usize {
    place(layout, (channel + 1) % 3, bit)
}

pub fn big_endian_place(layout: Layout, channel: usize, bit: usize) -> usize {
    let place = place(layout, channel, bit);
    let byte = bytes_a_point(layout) - 1 - place / 8;
    8 * byte + place % 8
}

/// The right bit of a byte, but among the bytes that hold the neighbour's field. What
/// would lie past the point is taken from its start.
pub fn place_in_neighbours_bytes(layout: Layout, channel: usize, bit: usize) -> usize {
    let [first, _] = held(layout, channel);
    let [neighbours, _] = held(layout, (channel + 1) % 3);
    let moved = place(layout, channel, bit) + 8 * neighbours - 8 * first;
    moved % (8 * bytes_a_point(layout))
}

/// The bytes of the field in the other order.
pub fn place_in_turned_bytes(layout: Layout, channel: usize, bit: usize) -> usize {
    let place = place(layout, channel, bit);
    let [first, count] = held(layout, channel);
    let last = first + count - 1;
    8 * (first + last - place / 8) + place % 8
}

/// The second byte of the field for its third.
pub fn place_in_two_bytes(layout: Layout, channel: usize, bit: usize) -> usize {
    let place = place(layout, channel, bit);
    let [first, _] = held(layout, channel);
    8 * (place / 8).min(first + 1) + place % 8
}

/// Points whose fields hold what these places of the given points hold. What is refused
/// is left as it is.
pub fn with_places(layout: Layout, packed: &[u8], other: Place) -> Vec<u8> {
    let mut moved = packed.to_vec();
    if is_valid(layout) && packed.len().is_multiple_of(bytes_a_point(layout)) {
        let mut codes = vec![0; elements_in(layout, packed.len())];
        load_fields(layout, packed, &mut codes, other);
        store_fields(layout, &codes, &mut moved, place);
    }
    moved
}

/// The layout with full range for the older.
pub fn older_as_full(mut layout: Layout) -> Layout {
    if layout[RANGE] == LEGACY {
        layout[RANGE] = 2;
    }
    layout
}
