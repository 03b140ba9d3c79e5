//! Groups of two points that share their colour: four bytes, Cb, Y', Cr, Y'.

/// The points of a group.
pub const POINTS: usize = 2;

/// The channels of the elements of a line that make a group: all three of the first
/// point, and of the second its brightness alone, whose colour is not looked at.
pub const LOOKED_AT: &[u8] = &[0, 1, 2, 0];

/// The codes of the points of a group, three a point: both have its colour.
pub fn codes(bytes: &[u8]) -> [u16; 6] {
    let &[cb, first, cr, second] = bytes else {
        panic!("a group has four bytes");
    };
    [first, cb, cr, second, cb, cr].map(u16::from)
}

/// The bytes of a group, from the codes that are looked at, none of which is above 255.
pub fn bytes(codes: &[u16]) -> [u8; 4] {
    let &[first, cb, cr, second] = codes else {
        panic!("four codes of a group are looked at");
    };
    [cb, first, cr, second].map(|code| code as u8)
}
