//! Part 8: random captures of 0 to 200 samples of three sorts, on two threads.

use crate::random::Random;
use crate::random_captures::{faulty, length, mask, random_runs, LONGEST};
use crate::tally::Tally;
use crate::{capture_check, captures, threads};

pub fn captures(count: u64) -> Tally {
    threads::shared(count, 8, some)
}

fn some(count: u64, mut random: Random) -> Tally {
    let mut tally = Tally::new("8 random captures");
    for _ in 0..count {
        let mask = mask(&mut random);
        let samples = match random.below(3) {
            0 => (0..LONGEST).map(|_| random.word() as u16).collect(),
            1 => captures::noisy(&random_runs(&mut random), mask, &mut random),
            _ => captures::noisy(&faulty(&mut random), mask, &mut random),
        };
        // The capture is the first part of what was made. Samples behind it must not matter.
        let samples = &samples[..length(&mut random)];
        let high = random.word() << 16;
        capture_check::capture(&mut tally, samples, high | u32::from(mask));
    }
    tally
}
