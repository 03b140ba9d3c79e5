//! Which layouts are inside the paper.

use crate::layouts::{OFFSETS, PRIMARIES, RANGE, SAMPLING};
use crate::library::Layout;

pub fn is_valid(layout: Layout) -> bool {
    is_of_points(layout) || is_of_groups(layout)
}

/// Whether points are their own, as a descriptor, a single point and a field need it.
pub fn is_of_points(layout: Layout) -> bool {
    let [model, _, _, depth, bytes, ..] = layout;
    [1, 2].contains(&model)
        && has_colors(layout)
        && [8, 10, 12].contains(&depth)
        && [3, 4, 5, 6, 7, 8].contains(&bytes)
        && layout[SAMPLING] == 0
        && fields_fit(layout)
}

/// But for primaries and range there is one layout of groups.
fn is_of_groups(layout: Layout) -> bool {
    let mut with_colors = [2, 0, 0, 8, 4, 0, 0, 0, 1];
    with_colors[PRIMARIES..=RANGE].copy_from_slice(&layout[PRIMARIES..=RANGE]);
    has_colors(layout) && layout == with_colors
}

fn has_colors(layout: Layout) -> bool {
    [1, 2, 3, 4].contains(&layout[PRIMARIES]) && [1, 2, 3].contains(&layout[RANGE])
}

/// Marks the bits of the fields one by one. None may be marked twice or missing.
fn fields_fit(layout: Layout) -> bool {
    let [_, _, _, depth, bytes, ..] = layout;
    let mut bits = vec![false; 8 * usize::from(bytes)];
    layout[OFFSETS..SAMPLING].iter().all(|&offset| {
        (0..depth).all(|bit| {
            let place = usize::from(offset) + usize::from(bit);
            match bits.get_mut(place) {
                Some(marked) => !std::mem::replace(marked, true),
                None => false,
            }
        })
    })
}
