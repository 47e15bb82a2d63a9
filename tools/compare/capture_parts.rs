//! Parts 4 to 7: captures of replies, exact and jittered, and of words that are damaged or moved.

use crate::capture_check::capture;
use crate::captures::{self, Ending, READ, ROOM};
use crate::checks;
use crate::damage::{self, endings};
use crate::moves::{self, MOVES, TAKEN};
use crate::original::reply_transitions_for;
use crate::random::Random;
use crate::rendering;
use crate::tally::Tally;

const VALUES: u32 = 4096;
const MASKS: [u32; 4] = [1, 0x8000, 0x0ff0, 0xffff];

/// First every slot of the simulated ESC's captures. Then the same buffers as both readers see
/// them.
pub fn simulated() -> [Tally; 2] {
    let mut written = Tally::new("4 simulate_reply, against a plain construction, every slot");
    let mut read = Tally::new("4 exact captures, read");
    for lead in [0, 1, 10, 91] {
        for length in [lead + READ, lead + READ + 1, 160, 200] {
            for mask in MASKS {
                for value in 0..VALUES {
                    // The low 12 bits of a value count, and the low 16 of a mask. If there is a
                    // lead, other bits are set too.
                    let (value, mask) = match lead {
                        0 => (value, mask),
                        _ => (value | value << 12, mask | mask << 16),
                    };
                    let samples = checks::simulate_reply(&mut written, length, value, lead, mask);
                    capture(&mut read, &samples, mask);
                }
            }
        }
    }
    [written, read]
}

/// Buffers that are too short, leads whose sum with 69 does not fit, and masks without a pin.
pub fn simulated_edges() -> Tally {
    let mut tally = Tally::new("4 simulate_reply at its limits, refusals leave the buffer");
    let top = usize::MAX;
    let huge = [top / 2, top - 69, top - 68, top - 67, top - 1, top];
    for lead in [0, 1, 10, 85, 331].into_iter().chain(huge) {
        // If the sum does not fit, this is what a wrapped sum would ask for.
        let least = lead.wrapping_add(READ) % 1024;
        let near = [least.saturating_sub(1), least, least + 1];
        for length in [0, 1, 57, 68, 69, 70, 160].into_iter().chain(near) {
            for mask in [0, 1, 0x8000, 0xffff, 1 << 16, 3 << 30, 0x8001_0001] {
                for value in [0, 0xe00, 0xfff, 0x1000, u32::MAX] {
                    checks::simulate_reply(&mut tally, length, value, lead, mask);
                }
            }
        }
    }
    tally
}

/// Jitter may carry the last edges out of what is read, and some captures end early. Such a capture
/// renders nothing, but the two sides must still agree on it.
pub fn jittered() -> Tally {
    let mut tally = Tally::new("5 jittered captures of all values");
    let mut random = Random::new(5);
    for round in 0..64 {
        for value in 0..VALUES {
            let times = captures::jittered(reply_transitions_for(value), &mut random);
            let lead = random.below(104);
            let length = match round % 8 {
                0 => lead + ROOM,
                1 => lead + ROOM - 1,
                2 => lead + READ,
                3 => lead + random.below(READ),
                4 => lead + ROOM + random.below(READ - ROOM),
                _ => 160.max(lead + ROOM),
            };
            let levels = captures::levels(lead, &times, Ending::Closed, length);
            let mask = MASKS[round / 8 % MASKS.len()];
            let samples = captures::noisy(&levels, mask as u16, &mut random);
            capture(&mut tally, &samples, mask);
        }
    }
    tally
}

/// An exact capture of a word in a window.
fn exact(word: u32, ending: Ending) -> Vec<u16> {
    let levels = captures::levels(10, &captures::exact(word), ending, 160);
    captures::clean(&levels, 1)
}

/// A jittered capture that renders the word, long enough to show its last edge.
fn jittered_rendering(word: u32, ending: Ending, random: &mut Random) -> Vec<u16> {
    let times = rendering::times(word, random);
    let least = ROOM.max(rendering::last_edge(&times) + 1);
    let lead = random.below(100);
    let levels = captures::levels(lead, &times, ending, lead + least + random.below(20));
    captures::noisy(&levels, 0x0020, random)
}

pub fn damaged() -> [Tally; 2] {
    let mut exactly = Tally::new("6 damaged captures, exact");
    let mut roughly = Tally::new("6 damaged captures, jittered");
    let mut random = Random::new(6);
    let (mut words, mut taken) = (0, [0; 2]);
    for word in (0..VALUES).map(reply_transitions_for) {
        for word in damage::damaged(word) {
            words += 1;
            for &ending in endings(word) {
                taken[0] += u64::from(capture(&mut exactly, &exact(word, ending), 1));
                let samples = jittered_rendering(word, ending, &mut random);
                taken[1] += u64::from(capture(&mut roughly, &samples, 0x0020));
            }
        }
    }
    for (tally, taken) in [&mut exactly, &mut roughly].into_iter().zip(taken) {
        tally.expect("words", words, u64::from(VALUES) * 4 * 31);
        tally.expect("taken", taken, 0);
    }
    [exactly, roughly]
}

pub fn moved() -> [Tally; 2] {
    let mut exactly = Tally::new("7 captures with a moved edge, exact");
    let mut roughly = Tally::new("7 captures with a moved edge, jittered");
    let mut random = Random::new(7);
    let mut taken = [0; 2];
    for word in (0..VALUES).map(reply_transitions_for) {
        for word in moves::moved(word) {
            // A move keeps the number of runs. It is even, so the last run is high.
            let samples = exact(word, Ending::Closed);
            taken[0] += u64::from(capture(&mut exactly, &samples, 1));
            let samples = jittered_rendering(word, Ending::Closed, &mut random);
            taken[1] += u64::from(capture(&mut roughly, &samples, 0x0020));
        }
    }
    for (tally, taken) in [&mut exactly, &mut roughly].into_iter().zip(taken) {
        tally.expect("moves", tally.compared, MOVES);
        tally.expect("taken", taken, TAKEN);
    }
    [exactly, roughly]
}
