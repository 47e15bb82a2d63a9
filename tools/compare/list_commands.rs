//! The list's groups of throttles, runs of commands, single steps of runs, and leases.

use crate::frame_call::Call;
use crate::frame_original as original;
use crate::list_frames::show;

pub fn groups() {
    println!("# throttles");
    for value in [
        0, 1, 2, 999, 1000, 1001, 1999, 2000, 2001, 2047, 2048, 65535,
    ] {
        show(Call::Throttle(value));
    }
    for values in [[0, 1, 1000, 2000], [2001, 65535, 0, 1999], [2, 3, 999, 48]] {
        show(Call::Throttles(values));
    }
    println!("# runs of commands: ten times a direction, ten times 12 to save it, and then none");
    for reversed in [0, 1] {
        println!("{}", command_run(reversed, 25));
    }
    steps();
    leases();
}

/// A run of commands: a number of steps. Each gives 1 and a command, or 0 and 0.
pub fn command_run(reversed: u32, steps: usize) -> String {
    let mut run = original::spin_direction(reversed);
    let step = |_| match run.next_value() {
        Some(command) => format!(" 1 {command}"),
        None => " 0 0".to_string(),
    };
    let steps: String = (0..steps).map(step).collect();
    format!("18 {reversed}{steps}")
}

/// The source's two runs have the first two pairs. The others show that any commands are taken.
const COMMANDS: [[u16; 2]; 5] = [[20, 12], [21, 12], [1, 47], [0, 65535], [65535, 0]];

fn steps() {
    println!("# single steps of any run, by a plain construction: the Rust's fields are");
    println!("# private, and but for a few of these it cannot make such runs");
    let pairs = COMMANDS.into_iter().cycle();
    let indices = [0, 1, 2, 3, 255].into_iter();
    let states = indices.flat_map(|index| [0, 1, 2, 9, 10, 255].map(|left| (index, left)));
    for ((index, left), [first, second]) in states.zip(pairs) {
        show(Call::NextValue([first, second, index, left]));
    }
}

fn leases() {
    println!("# leases that last");
    let top = u64::MAX;
    for (started, duration, now) in [
        (0, 0, 0),
        (1000, 0, 1000),
        (top, 0, top),
        (1000, 500, 1500),
        (0, u32::MAX, u32::MAX.into()),
    ] {
        lease(started, duration, now, false);
    }
    println!("# clocks that have wrapped, and a large one");
    lease(top, 1, 0, false);
    lease(top - 9, 20, 10, false);
    lease(1 << 63, u32::MAX, (1 << 63) + u64::from(u32::MAX), false);
    println!("# leases that are over: a tick too late, an earlier clock, and both wrapped");
    for (started, duration, now) in [
        (0, 0, 1),
        (1000, 500, 1501),
        (0, u32::MAX, 1 << 32),
        (1000, 0, 999),
        (1000, u32::MAX, 999),
        (1, u32::MAX, 0),
        (0, 0, top),
        (top, 0, 0),
        (top - 9, 20, 11),
        (top, u32::MAX, top - 1),
        (0, 500, 1 << 32),
    ] {
        lease(started, duration, now, true);
    }
}

/// The answer is asserted, so a group's name says only what its records do.
fn lease(started: u64, duration: u32, now: u64, expired: bool) {
    assert_eq!(original::lease_expired(started, duration, now), expired);
    show(Call::LeaseExpired(started, duration, now));
}
