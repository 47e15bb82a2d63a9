//! What is measured of frames: sets of four values, and clocks with bit rates.

use crate::frames::Set;
use crate::random::Random;

const SETS: usize = 512;

/// DShot600 on a timer of 168 MHz.
pub const CLOCKS: (u32, u32) = (168_000_000, 600_000);

/// Values of eleven bits. No lane is asked for telemetry, or one of the four is.
pub fn sets() -> Vec<Set> {
    let mut random = Random::new(6);
    let set = |_| Set {
        values: [(); 4].map(|()| random.below(2048) as u16),
        lane: random.below(5).checked_sub(1),
    };
    (0..SETS).map(set).collect()
}

/// Timers of 10 to 500 MHz and the bit rates of DShot. All of them can be timed.
pub fn clocks() -> Vec<(u32, u32)> {
    let mut random = Random::new(7);
    let pair = |_| {
        let rate = 150_000 << random.below(4);
        (10_000_000 + random.below(490_000_001) as u32, rate)
    };
    (0..SETS).map(pair).collect()
}
