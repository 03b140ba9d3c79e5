//! Refusals, as the C interface answers them.

pub const SIZE: i64 = -1;
pub const HEADER: i64 = -2;
pub const COLOR: i64 = -3;
pub const PLANES: i64 = -4;
pub const SAMPLE: i64 = -5;
pub const NO_RANGE: i64 = -6;
pub const EDITION: i64 = -7;
pub const LATER_EDITION: i64 = -8;
pub const OUTSIDE: i64 = -9;
pub const ACCESS: i64 = -10;
pub const UNWRITABLE: i64 = -11;
pub const NOT_A_NUMBER: i64 = -12;
pub const LENGTH: i64 = -13;
pub const CODE_TOO_HIGH: i64 = -14;
pub const NO_ITEM: i64 = -15;
pub const ODD_COUNT: i64 = -16;
pub const NOT_OPEN: i64 = -17;
pub const PICTURE: i64 = -18;
