//! Jittered captures that render a word, document 01's term: every edge lies inside what is read.

use crate::captures::{jittered, READ};
use crate::random::Random;

/// The samples of each run. Jitter may carry the last edges out of what is read. So it is drawn
/// again until it does not.
pub fn times(word: u32, random: &mut Random) -> Vec<usize> {
    loop {
        let times = jittered(word, random);
        if last_edge(&times) < READ {
            return times;
        }
    }
}

/// Where the last run starts, counted from the start.
pub fn last_edge(times: &[usize]) -> usize {
    times[..times.len() - 1].iter().sum()
}
