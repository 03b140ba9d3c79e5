//! Layouts outside the paper, with other refusals that compete with theirs.

use crate::layouts::{self, packed_length};
use crate::library::{Layout, Library};
use crate::tally::{Flow, Tally};

use super::{
    compare_decode_line, compare_decode_point, compare_encode_line, compare_encode_point,
    compare_pack_line, compare_unpack_line,
};

pub fn layouts_outside(library: &Library, tally: &mut Tally) -> Flow {
    for layout in layouts::one_of_each_size() {
        compare_changed(library, tally, layout)?;
    }
    Flow::Continue(())
}

/// Groups, and points of as many bytes.
pub fn groups_outside(library: &Library, tally: &mut Tally) -> Flow {
    let points = [2, 2, 1, 8, 4, 0, 8, 16, layouts::OWN];
    for layout in layouts::groups_of_each_range().chain([points]) {
        compare_changed(library, tally, layout)?;
    }
    Flow::Continue(())
}

/// Every number of a layout takes all its values, those inside the paper too.
/// Lengths are right by the unchanged layout, by the changed one, or wrong, and
/// the codes and floats are good or not.
fn compare_changed(library: &Library, tally: &mut Tally, layout: Layout) -> Flow {
    for changed in layouts::changed(layout) {
        let length = packed_length(layout, 2);
        compare_lines(library, tally, changed, length)?;
        compare_lines(library, tally, changed, length + 1)?;
        compare_lines(library, tally, changed, packed_length(changed, 2))?;
    }
    Flow::Continue(())
}

/// Two points of good elements and of bad ones, and one point, with so many packed
/// bytes. The second point's last element is not looked at in a group, its first is.
fn compare_lines(library: &Library, tally: &mut Tally, layout: Layout, length: usize) -> Flow {
    let packed: Vec<u8> = (0..)
        .take(length)
        .map(|byte: u16| byte as u8 ^ 0x5a)
        .collect();
    compare_unpack_line(library, tally, layout, &packed, 6)?;
    compare_decode_line(library, tally, layout, &packed, 6)?;
    compare_decode_point(library, tally, layout, &packed[..length / 2])?;
    let codes = [0, 1, 2, 254, 255, 255];
    let values = [0.0, 1.0, -0.25, 0.125, 0.75, 0.5];
    compare_pack_line(library, tally, layout, &codes[..3], length)?;
    compare_pack_line(library, tally, layout, &codes, length)?;
    compare_encode_line(library, tally, layout, &values[..3], length)?;
    compare_encode_line(library, tally, layout, &values, length)?;
    compare_encode_point(library, tally, layout, [0.25, 0.5, 0.5], length / 2)?;
    for place in [3, 5] {
        let (mut codes, mut values) = (codes, values);
        codes[place] = u16::MAX;
        values[place] = f32::NAN;
        compare_pack_line(library, tally, layout, &codes, length)?;
        compare_encode_line(library, tally, layout, &values, length)?;
    }
    compare_encode_point(library, tally, layout, [0.25, 0.5, f32::NAN], length / 2)
}
