//! Captures of words: how long each level lasts, the levels, and samples that show them.

use crate::random::Random;

/// Samples that a reply bit lasts.
pub const BIT: usize = 3;

/// How many samples a start needs from itself on, and how many are read from there at most.
pub const ROOM: usize = 19 * BIT;
pub const READ: usize = 23 * BIT;

/// What follows the last run: the line goes back to high, or stays as it is.
#[derive(Clone, Copy, PartialEq)]
pub enum Ending {
    Closed,
    Open,
}

/// The bits of each run of a word. A 1 starts a run. Bit 20, the start edge, starts the first.
pub fn runs(word: u32) -> Vec<usize> {
    let mut runs: Vec<usize> = Vec::new();
    for place in (0..21).rev() {
        match runs.last_mut() {
            Some(last) if word >> place & 1 == 0 => *last += 1,
            _ => runs.push(1),
        }
    }
    runs
}

/// The samples of each run, three a bit.
pub fn exact(word: u32) -> Vec<usize> {
    runs(word).iter().map(|bits| BIT * bits).collect()
}

/// The same, with each run a sample short, right or a sample long. The last run counts only if it
/// closes.
pub fn jittered(word: u32, random: &mut Random) -> Vec<usize> {
    let off = |bits: &usize| BIT * bits + random.below(3) - 1;
    runs(word).iter().map(off).collect()
}

/// A capture of `length` samples: a lead of high samples, the runs, and the ending. The length may
/// cut it short.
pub fn levels(lead: usize, times: &[usize], ending: Ending, length: usize) -> Vec<bool> {
    let mut levels = vec![true; lead];
    let mut level = true;
    for &samples in times {
        level = !level;
        levels.resize(levels.len() + samples, level);
    }
    levels.resize(length, level || ending == Ending::Closed);
    levels
}

/// A high sample has all pins of the mask, a low one none.
pub fn clean(levels: &[bool], mask: u16) -> Vec<u16> {
    let sample = |&level: &bool| if level { mask } else { 0 };
    levels.iter().map(sample).collect()
}

/// Samples of a whole port. The other pins are at random, and any of the mask's pins may be high.
pub fn noisy(levels: &[bool], mask: u16, random: &mut Random) -> Vec<u16> {
    let sample = |&level: &bool| {
        let number = random.word();
        let others = number as u16 & !mask;
        match (number >> 16) as u16 & mask {
            _ if !level => others,
            0 => others | mask,
            pins => others | pins,
        }
    };
    levels.iter().map(sample).collect()
}
