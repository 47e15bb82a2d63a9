//! Random captures: runs of any length, and replies with a few faults.

use crate::captures::{self, Ending};
use crate::original::reply_transitions_for;
use crate::random::Random;

pub const LONGEST: usize = 200;

/// No pin, one, several or all.
pub fn mask(random: &mut Random) -> u16 {
    match random.below(16) {
        0 => 0,
        1 => 0xffff,
        2..=5 => random.word() as u16,
        _ => 1 << random.below(16),
    }
}

/// Half of the captures are long, so more of them hold a whole reply.
pub fn length(random: &mut Random) -> usize {
    let least = if random.one_in(2) { 0 } else { LONGEST / 2 };
    least + random.below(LONGEST - least + 1)
}

/// Runs of 1 to 12 samples.
pub fn random_runs(random: &mut Random) -> Vec<bool> {
    let lead = random.below(LONGEST / 2);
    let times: Vec<usize> = (0..50).map(|_| 1 + random.below(12)).collect();
    captures::levels(lead, &times, Ending::Open, LONGEST)
}

/// A jittered reply, or some other word. At most one run has a wrong length, and at most two
/// samples are turned over.
pub fn faulty(random: &mut Random) -> Vec<bool> {
    let word = match random.below(3) {
        0 => 1 << 20 | random.word() >> 12,
        _ => reply_transitions_for(random.word()),
    };
    let mut times = captures::jittered(word, random);
    if random.one_in(3) {
        let run = random.below(times.len());
        times[run] = 1 + random.below(12);
    }
    let closed = random.one_in(2);
    let ending = if closed { Ending::Closed } else { Ending::Open };
    let lead = random.below(LONGEST / 2);
    let mut levels = captures::levels(lead, &times, ending, LONGEST);
    for _ in 0..random.below(3) {
        let turned = &mut levels[lead + random.below(80)];
        *turned = !*turned;
    }
    levels
}
