//! Part 12: timings of clocks and bit rates.

use crate::clocks;
use crate::frame_call::Call;
use crate::frame_check::frame;
use crate::random::Random;
use crate::tally::Tally;
use crate::threads;

/// Every limit together with every other.
pub fn limits() -> Tally {
    let mut tally = Tally::new("12 from_clocks, all pairs of limits");
    let limits = clocks::limits();
    for clock in &limits {
        for rate in &limits {
            frame(&mut tally, Call::FromClocks(*clock, *rate));
        }
    }
    tally
}

pub fn pairs() -> Tally {
    threads::shared(12_000_000, 14, some)
}

fn some(count: u64, mut random: Random) -> Tally {
    let mut tally = Tally::new("12 from_clocks, random pairs, most of them at the limits");
    for _ in 0..count {
        let (clock, rate) = clocks::pair(&mut random);
        frame(&mut tally, Call::FromClocks(clock, rate));
    }
    tally
}
