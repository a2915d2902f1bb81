//! Tree bytes of worked examples.

/// Those of the keys `bar`, `baz` and `foo`, a record in each line.
pub const THREE: [u8; 27] = [
    12, 0, 0, 0, //
    60, 2, 0, 1, 98, 97, //
    51, 1, 0, 2, 114, //
    3, 1, 0, 2, 122, //
    3, 3, 0, 1, 102, 111, 111,
];

/// The same with wide levels.
pub const WIDE: [u8; 37] = [
    12, 0, 0, 0, 0, 0, //
    60, 2, 0, 0, 0, 1, 98, 97, //
    51, 1, 0, 0, 0, 2, 114, //
    3, 1, 0, 0, 0, 2, 122, //
    3, 3, 0, 0, 0, 1, 102, 111, 111,
];
