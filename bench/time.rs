//! Nanoseconds of a call: the least of many passes, divided by the calls in one. The two sides take
//! turns, so both meet the same disturbances. A process can be slow as a whole, and then more
//! passes in it do not help. Therefore the passes are spread over several processes.

use crate::benches::Bench;
use std::env;
use std::process::Command;
use std::time::Instant;

const REPEATS: usize = 1000;
const PROCESSES: usize = 12;

/// The original's and the library's, in this process.
pub fn here(bench: &Bench) -> [f64; 2] {
    let mut least = [f64::MAX; 2];
    for _ in 0..REPEATS {
        for (side, least) in bench.sides.iter().zip(&mut least) {
            let start = Instant::now();
            side();
            *least = least.min(start.elapsed().as_nanos() as f64);
        }
    }
    least.map(|pass| pass / bench.calls as f64)
}

/// What another process of this program prints for the bench with this number.
fn elsewhere(number: usize) -> Option<[f64; 2]> {
    let mut command = Command::new(env::current_exe().ok()?);
    let output = command.arg(number.to_string()).output().ok()?;
    let text = String::from_utf8(output.stdout).ok()?;
    let (original, library) = text.trim().split_once(' ')?;
    Some([original.parse().ok()?, library.parse().ok()?])
}

/// The least of all processes, for each side.
pub fn nanoseconds(number: usize) -> Option<[f64; 2]> {
    let mut least = [f64::MAX; 2];
    for _ in 0..PROCESSES {
        let [original, library] = elsewhere(number)?;
        least = [least[0].min(original), least[1].min(library)];
    }
    Some(least)
}
