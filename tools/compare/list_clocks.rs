//! The list's groups of timings.

use crate::frame_call::Call;
use crate::frame_original::from_clocks;
use crate::list_frames::show;

pub fn groups() {
    let clocks = [0, 1, 4, 5, 6, 65535, 65536, 65537, u32::MAX];
    for rate in [0, 1, 600_000, u32::MAX] {
        println!("# timings of a bit rate of {rate}");
        for clock in clocks {
            show(Call::FromClocks(clock, rate));
        }
    }
    println!("# the bit rates of DShot on a timer of 168 MHz");
    for rate in [150_000, 300_000, 600_000, 1_200_000] {
        show(Call::FromClocks(168_000_000, rate));
    }
    println!("# the shortest periods: reply samples of 1.5 ticks are the first that can be timed");
    for (clock, answer) in [(5624, Err(3)), (5625, Ok(())), (5626, Ok(()))] {
        held(clock, 1000, answer);
    }
    println!("# the same at the highest clock");
    for (rate, answer) in [
        (763_549_741, Ok(())),
        (763_549_742, Err(3)),
        (1_227_133_512, Err(3)),
    ] {
        held(u32::MAX, rate, answer);
    }
    too_short();
    println!("# about the longest period, 65536 ticks: 65536.499, and 65536.5, which is 65537");
    for (clock, answer) in [(65_536_499, Ok(())), (65_536_500, Err(4))] {
        held(clock, 1000, answer);
    }
    halves();
}

/// Every period of 4 or less is refused with 3 (period too short). So is a longer one with too
/// short a sample.
fn too_short() {
    println!("# periods under 4 ticks: 3");
    for (clock, rate) in [(5, 2), (3499, 1000)] {
        refused(clock, rate, 3);
    }
    println!("# periods of 4 ticks, refused for the sample period, which is 1 tick: 3");
    for (clock, rate) in [(7, 2), (8, 2), (3500, 1000), (4499, 1000)] {
        refused(clock, rate, 4);
    }
    println!("# 4.5 ticks, a period of 5, still refused for the sample period: 3");
    for (clock, rate) in [(9, 2), (4500, 1000), (2_700_000, 600_000)] {
        refused(clock, rate, 5);
    }
}

/// The source does not say which period it refuses, so it is computed here.
fn refused(clock: u32, rate: u32, period: u32) {
    assert_eq!((clock + rate / 2) / rate, period);
    held(clock, rate, Err(3));
}

/// Each half of a period comes with the clock just below it.
fn halves() {
    println!("# halves of the period: 6.5, 279.5 and 65535.5 ticks are 7, 280 and 65536");
    for (clock, rate, ticks) in [
        (12, 2, 6),
        (13, 2, 7),
        (6499, 1000, 6),
        (6500, 1000, 7),
        (279_499, 1000, 279),
        (279_500, 1000, 280),
        (65_535_499, 1000, 65535),
        (65_535_500, 1000, 65536),
    ] {
        rounded(clock, rate, |[arr, _, _, _]| u32::from(arr) + 1, ticks);
    }
    println!("# halves of the sample period: 2.5 and 74.5 ticks are 3 and 75");
    for (clock, rate, ticks) in [
        (74, 8, 2),
        (75, 8, 3),
        (279_374, 1000, 74),
        (279_375, 1000, 75),
        (167_624_999, 600_000, 74),
        (167_625_000, 600_000, 75),
    ] {
        rounded(clock, rate, |[_, _, _, arr]| u32::from(arr) + 1, ticks);
    }
    println!("# halves of the high times: of a period of 12 a 0 has 4.5, of 6 a 1: both are 5");
    rounded(12, 1, |[_, zero_high, _, _]| zero_high.into(), 5);
    rounded(6, 1, |[_, _, one_high, _]| one_high.into(), 5);
}

/// A timing's record, and what one of its counts must be.
fn rounded(clock: u32, rate: u32, count: fn([u16; 4]) -> u32, ticks: u32) {
    assert_eq!(from_clocks(clock, rate).map(count), Ok(ticks));
    show(Call::FromClocks(clock, rate));
}

/// A timing's record. The answer is asserted, so a group's name says only what its records do.
fn held(clock: u32, rate: u32, answer: Result<(), u32>) {
    assert_eq!(from_clocks(clock, rate).map(|_| ()), answer);
    show(Call::FromClocks(clock, rate));
}
