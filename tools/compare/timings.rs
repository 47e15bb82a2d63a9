//! Timings that sequences are encoded and read at.

use crate::frame_original::from_clocks;

/// DShot600 on a timer of 168 MHz.
pub fn dshot600() -> [u16; 4] {
    from_clocks(168_000_000, 600_000).expect("such a timer can send DShot600")
}

/// Timings that no clock gives. Their first and last numbers do not matter to a sequence.
pub const ODD: [[u16; 4]; 7] = [
    [279, 105, 0, 74],
    [279, 0, 210, 74],
    [279, 210, 105, 74],
    [0, 65535, 0, 0],
    [65535, 0, 65535, 65535],
    [279, 1, 2, 74],
    [43690, 43690, 43691, 43690],
];

/// If the high times are equal, no sequence can be read.
pub const EQUAL: [[u16; 4]; 3] = [[279, 77, 77, 74], [279, 0, 0, 74], [0, 65535, 65535, 0]];
