//! What is measured of replies: windows of 160 samples, and words. Each set has many different
//! ones, so a branch predictor cannot foresee them.

use crate::captures::{clean, exact, levels, noisy, Ending};
use crate::random::Random;
use crate::rendering;
use ferrowasp_output::dshot_reply::{reply_transitions_for, REPLY_WINDOW_SAMPLES};

/// The pin that is read.
pub const MASK: u16 = 1 << 5;

const WINDOWS: usize = 512;

type Windows = Vec<Vec<u16>>;

fn random_word(random: &mut Random) -> u32 {
    reply_transitions_for(random.word() as u16)
}

/// Exact replies after a lead of 10.
pub fn exact_replies() -> Windows {
    let mut random = Random::new(1);
    let window = |_| {
        let times = exact(random_word(&mut random));
        clean(
            &levels(10, &times, Ending::Closed, REPLY_WINDOW_SAMPLES),
            MASK,
        )
    };
    (0..WINDOWS).map(window).collect()
}

/// Jittered replies that start late, with the port's other pins at random.
pub fn late_replies() -> Windows {
    let mut random = Random::new(2);
    let window = |_| {
        let times = rendering::times(random_word(&mut random), &mut random);
        let levels = levels(85, &times, Ending::Closed, REPLY_WINDOW_SAMPLES);
        noisy(&levels, MASK, &mut random)
    };
    (0..WINDOWS).map(window).collect()
}

/// The line stays high; the port's other pins are at random.
pub fn windows_without_reply() -> Windows {
    let mut random = Random::new(3);
    let window = |_| noisy(&[true; REPLY_WINDOW_SAMPLES], MASK, &mut random);
    (0..WINDOWS).map(window).collect()
}

/// The words of all values, shuffled.
pub fn words() -> Vec<u32> {
    let mut random = Random::new(4);
    let mut words: Vec<u32> = (0..4096).map(reply_transitions_for).collect();
    for last in (1..words.len()).rev() {
        words.swap(last, random.below(last + 1));
    }
    words
}

/// The same, with one bit of a symbol changed in half of them, picked at random.
pub fn damaged_words() -> Vec<u32> {
    let mut random = Random::new(5);
    let mut words = words();
    for word in words.iter_mut().filter(|_| random.below(2) == 0) {
        *word ^= 1 << (*word as usize % 20);
    }
    words
}
