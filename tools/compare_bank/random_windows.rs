//! Random windows: renderings of replies, of damaged words and of words with a moved edge. Also
//! other levels, noise, and absent captures.

use crate::captures::{self, levels, BIT, ROOM};
use crate::damage::{damaged, endings};
use crate::moves::moved;
use crate::original::reply_transitions_for;
use crate::random::Random;
use crate::random_captures::{self, faulty, random_runs};
use crate::rendering;
use crate::windows::{Window, WINDOW};

pub fn windows(random: &mut Random) -> [Window; 4] {
    [(); 4].map(|()| window(random))
}

fn window(random: &mut Random) -> Window {
    let levels = window_levels(random);
    let mask = random_captures::mask(random);
    let mut window = Window::of(&levels, mask);
    match random.below(32) {
        // Every sample is drawn by itself, which makes long lines.
        0 => window.samples = captures::noisy(&levels, mask, random),
        1 => window.samples = (0..WINDOW).map(|_| random.word() as u16).collect(),
        // The other pins do not change.
        2..=15 => {
            let others = random.word() as u16 & !mask;
            window.samples.iter_mut().for_each(|pins| *pins |= others);
        }
        _ => (),
    }
    window.present = !random.one_in(16);
    window
}

fn window_levels(random: &mut Random) -> Vec<bool> {
    let word = reply_transitions_for(value(random));
    let mut levels = match random.below(20) {
        0..=8 => rendered(word, random),
        9..=11 => rendered(one_of(damaged(word), random), random),
        12..=14 => rendered(one_of(moved(word), random), random),
        15 | 16 => faulty(random),
        17 => random_runs(random),
        18 => many_edges(random),
        _ => vec![random.one_in(2); WINDOW],
    };
    levels.truncate(WINDOW);
    levels
}

/// Values. The stopped rotor, the acknowledgement and periods of 0 are among them.
fn value(random: &mut Random) -> u32 {
    match random.below(16) {
        0 => 0xfff,
        1 => 0xe00,
        2 => 512 * random.below(8) as u32,
        _ => random.word() >> 20,
    }
}

fn one_of(words: impl Iterator<Item = u32>, random: &mut Random) -> u32 {
    let words: Vec<u32> = words.collect();
    words[random.below(words.len())]
}

/// A jittered rendering at any place of the window that has room for it.
fn rendered(word: u32, random: &mut Random) -> Vec<bool> {
    let times = rendering::times(word, random);
    let least = ROOM.max(rendering::last_edge(&times) + 1);
    let lead = random.below(WINDOW - least + 1);
    let endings = endings(word);
    let ending = endings[random.below(endings.len())];
    levels(lead, &times, ending, WINDOW)
}

/// About as many edges as a reply can have, or some more.
fn many_edges(random: &mut Random) -> Vec<bool> {
    let runs = 16 + random.below(10);
    let times: Vec<usize> = (0..runs).map(|_| BIT - random.below(2)).collect();
    levels(random.below(90), &times, captures::Ending::Open, WINDOW)
}
