//! The clock of a random list.

use crate::random::Random;

/// The latest time that the clock gave.
pub struct Clock(pub u64);

impl Clock {
    /// Some clocks start close to where they wrap, or where a narrower clock would wrap.
    pub fn any(random: &mut Random) -> Self {
        let near = random.below(300) as u64;
        Self(match random.below(8) {
            0 | 1 => u64::MAX - near,
            2 => (1 << 32) - near,
            3 => (1 << 63) - near,
            4 => random.number(),
            5 => 0,
            _ => random.below(100_000) as u64,
        })
    }

    /// The clock goes on, mostly by a tick or two. Now and then it stands, leaps or goes back. Some
    /// leaps go to where it wraps next.
    pub fn tick(&mut self, random: &mut Random) -> u64 {
        let on = |ticks: u64| self.0.wrapping_add(ticks);
        self.0 = match random.below(80) {
            0 => on(random.number()),
            1 | 2 => on((random.below(8) as u64).wrapping_neg()),
            3 => u64::MAX - random.below(3) as u64,
            4 => on(random.below(40) as u64),
            5..=16 => self.0,
            _ => on(1 + random.below(2) as u64),
        };
        self.0
    }

    /// A time for a demand. Now and then it differs from that of the services.
    pub fn beside(&self, random: &mut Random) -> u64 {
        match random.below(12) {
            0 => random.number(),
            1 => self.0.wrapping_add(random.below(9) as u64),
            2 => self.0.wrapping_sub(random.below(9) as u64),
            _ => self.0,
        }
    }
}
