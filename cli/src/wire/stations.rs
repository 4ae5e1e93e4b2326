//! The stations of the search: the places k = j·2^20 with j from -4095 to 16384, in the widest grid.

/// How far neighbouring stations are apart in k.
pub const STATION: i64 = 1 << 20;
pub const FIRST: i64 = STATION - (1 << 32);
pub const LAST: i64 = 1 << 34;
