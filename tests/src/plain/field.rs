//! The field of a channel, by the bytes of the point that have bits of it.

use reference::refusal::Refusal;

use crate::guarded::Guarded;
use crate::layouts::{bytes_a_point, DEPTH};
use crate::library::Layout;
use crate::quantization::refused;

use super::layout::is_of_points;
use super::lines::{load_fields, place};

/// The place of the first byte that holds a channel's field, and how many do.
pub type Held = fn(Layout, usize) -> [usize; 2];

/// Looks at every byte of the point.
pub fn held(layout: Layout, channel: usize) -> [usize; 2] {
    let lowest = place(layout, channel, 0);
    let after = place(layout, channel, layout[DEPTH].into());
    let has_bits = |byte: &usize| 8 * byte < after && lowest < 8 * byte + 8;
    let mut bytes = (0..bytes_a_point(layout)).filter(has_bits);
    let first = bytes.next().expect("a field within the point");
    [first, 1 + bytes.count()]
}

/// Tells the bytes of a field, with the given rule for them.
pub fn told(layout: Layout, channel: u8, first: &mut Guarded<u8>, held: Held) -> i64 {
    if is_outside(layout, channel) {
        return refused(Refusal::Outside);
    }
    let [place, count] = held(layout, channel.into());
    first.output().fill(place as u8);
    count as i64
}

/// The code in the bytes of a field, with the given rule for them: they are put to
/// their place in a point of zeros.
pub fn taken(layout: Layout, channel: u8, bytes: &[u8], held: Held) -> i64 {
    if is_outside(layout, channel) {
        return refused(Refusal::Outside);
    }
    let [first, count] = held(layout, channel.into());
    if bytes.len() != count {
        return refused(Refusal::Length);
    }
    let (mut point, mut codes) = ([0; 16], [0; 3]);
    point[first..][..count].copy_from_slice(bytes);
    load_fields(layout, &point[..bytes_a_point(layout)], &mut codes, place);
    codes[usize::from(channel)].into()
}

fn is_outside(layout: Layout, channel: u8) -> bool {
    !is_of_points(layout) || ![0, 1, 2].contains(&channel)
}
