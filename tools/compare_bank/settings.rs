//! What the calls on one bank of a random list are like.

use crate::random::Random;
use crate::timings::{dshot600, EQUAL, ODD};

pub struct Settings {
    pub timing: [u16; 4],
    /// What the lanes answer, if the bank is to be turned bidirectional at its start.
    pub receives: Option<bool>,
    /// How many of a hundred calls go on with the frame.
    pub onward: usize,
    /// One in this many of those goes wrong.
    pub fault: usize,
    /// Counts start near their limits.
    pub full_counts: bool,
}

impl Settings {
    pub fn any(random: &mut Random) -> Self {
        Self {
            timing: timing(random),
            receives: match random.below(10) {
                0 => None,
                1 => Some(false),
                _ => Some(true),
            },
            onward: [40, 60, 75, 85, 95][random.below(5)],
            fault: [20, 60, 200, 1000, 1_000_000][random.below(5)],
            full_counts: random.one_in(6),
        }
    }
}

/// A timing, mostly that of DShot600.
fn timing(random: &mut Random) -> [u16; 4] {
    match random.below(8) {
        0 => ODD[random.below(ODD.len())],
        1 => EQUAL[random.below(EQUAL.len())],
        2 => [(); 4].map(|()| random.word() as u16),
        _ => dshot600(),
    }
}
