//! Instructions of a call. This program runs itself under valgrind, once with some passes of one
//! side and once with none. The difference belongs to those passes, loop and wrapper included.

use crate::benches::Bench;
use std::env;
use std::process::Command;

const PASSES: u64 = 8;

/// All instructions of a run of this program that makes so many passes.
fn counted(bench: usize, side: usize, passes: u64) -> Option<u64> {
    let output = Command::new("valgrind")
        .args(["--tool=callgrind", "--callgrind-out-file=/dev/null"])
        .arg(env::current_exe().ok()?)
        .args([bench as u64, side as u64, passes].map(|number| number.to_string()))
        .output()
        .ok()?;
    // The line is `==PID== Collected : NUMBER`.
    let text = String::from_utf8_lossy(&output.stderr);
    let line = text.lines().find(|line| line.contains("Collected"))?;
    line.rsplit(' ').next()?.parse().ok()
}

/// The original's and the library's, of the bench with this number.
pub fn each_call(bench: &Bench, number: usize) -> Option<[f64; 2]> {
    let calls = PASSES as f64 * bench.calls as f64;
    let side = |side| {
        let passes = counted(number, side, PASSES)? - counted(number, side, 0)?;
        Some(passes as f64 / calls)
    };
    Some([side(0)?, side(1)?])
}
