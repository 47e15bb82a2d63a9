//! The windows of a service: what each lane's capture is, and all four as runs of equal samples.

use crate::call::Service;
use crate::captures::{self, clean, exact, levels, Ending};
use crate::original::reply_transitions_for;

/// Samples of one lane's window.
pub const WINDOW: usize = 160;

#[derive(Clone)]
pub struct Window {
    pub present: bool,
    pub mask: u16,
    pub samples: Vec<u16>,
}

impl Window {
    /// Levels of a window, seen only at the pins of the mask.
    pub fn of(levels: &[bool], mask: u16) -> Self {
        Self {
            present: true,
            mask,
            samples: clean(levels, mask),
        }
    }

    /// The exact reply of a value after some high samples.
    pub fn reply(value: u32, lead: usize, mask: u16) -> Self {
        Self::word(reply_transitions_for(value), lead, mask)
    }

    /// Any word, three samples a bit.
    pub fn word(word: u32, lead: usize, mask: u16) -> Self {
        Self::of(&levels(lead, &exact(word), Ending::Closed, WINDOW), mask)
    }

    /// A number of runs of one bit, and then the last level to the end.
    pub fn bits(bits: usize, mask: u16) -> Self {
        let times = vec![captures::BIT; bits];
        Self::of(&levels(10, &times, Ending::Open, WINDOW), mask)
    }

    /// The same samples, but the hardware has no capture.
    pub fn absent(self) -> Self {
        Self {
            present: false,
            ..self
        }
    }
}

impl Service {
    pub fn with_windows(self, windows: &[Window; 4]) -> Self {
        let samples: Vec<u16> = windows.iter().flat_map(|w| w.samples.clone()).collect();
        Self {
            present: [0, 1, 2, 3].map(|lane| windows[lane].present),
            masks: [0, 1, 2, 3].map(|lane| windows[lane].mask),
            ..self.with_samples(&samples)
        }
    }

    /// The captures have the length of these samples.
    pub fn with_samples(self, samples: &[u16]) -> Self {
        let run = |run: &[u16]| (run[0], run.len());
        let mut runs: Vec<_> = samples.chunk_by(|a, b| a == b).map(run).collect();
        // Zeros at the end need not be written.
        runs.pop_if(|(sample, _)| *sample == 0);
        Self {
            capture_length: samples.len(),
            runs,
            ..self
        }
    }
}
