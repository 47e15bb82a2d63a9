//! Parts 16 to 18: throttles, runs of commands, and leases.

use crate::frame_call::Call;
use crate::frame_check::frame;
use crate::frame_original as original;
use crate::plain_frames;
use crate::random::Random;
use crate::tally::Tally;

/// A throttle wider than 16 bits counts as 2000, whatever its low bits are.
pub fn throttles() -> Tally {
    let mut tally = Tally::new("16 throttles, all of 16 bits, wide ones, and four at a time");
    let mut random = Random::new(20);
    for value in 0..1 << 16 {
        frame(&mut tally, Call::Throttle(value));
        frame(&mut tally, Call::Throttle(random.word() << 16 | value));
        let shift = random.below(8);
        let values = [(); 4].map(|()| random.word() as u16 >> shift);
        frame(&mut tally, Call::Throttles(values));
    }
    for power in 16..32 {
        for value in [(1 << power) - 1, 1 << power, (1 << power) + 1] {
            frame(&mut tally, Call::Throttle(value));
        }
    }
    frame(&mut tally, Call::Throttle(u32::MAX));
    tally
}

/// 300 steps of each run, with the source's own run beside it. Of these steps 20 give a command.
pub fn runs() -> Tally {
    let mut tally = Tally::new("17 runs of commands, 300 steps each, beside the source's");
    let (mut given, directions) = (0, [0, 1, 2, 1 << 31, u32::MAX]);
    for reversed in directions {
        frame(&mut tally, Call::SpinDirection(reversed));
        let mut run = original::spin_direction(reversed);
        for step in 0..300 {
            let before = original::fields(&run);
            let command = run.next_value();
            let right = (
                original::fields(&run),
                command.map_or([0, 0], |value| [1, value]),
            );
            given += u64::from(command.is_some());
            frame(&mut tally, Call::NextValue(before));
            // The step above is compared with the plain one. Here that is compared with the
            // source's.
            let same = plain_frames::next_value(before) == right;
            tally.compare(0, same, step, || format!("plain step of {before:?}"));
        }
    }
    tally.expect("commands", given, 20 * directions.len() as u64);
    tally
}

/// The source makes no other runs; the library takes any.
pub fn other_runs() -> Tally {
    let mut tally = Tally::new("17 a step of any run, against a plain construction");
    let mut random = Random::new(21);
    for index in 0..256 {
        for repeats_left in 0..256 {
            let [direction, save] = [(); 2].map(|()| random.word() as u16);
            let run = [direction, save, index, repeats_left];
            frame(&mut tally, Call::NextValue(run));
            // A slot holds more than a byte. If an index is that large, it is past the end. If a
            // count is, its low byte counts.
            let [index, repeats_left] =
                [index, repeats_left].map(|byte| random.word() as u16 & !255 | byte);
            let run = [direction, save, index % 3, repeats_left];
            frame(&mut tally, Call::NextValue(run));
            frame(
                &mut tally,
                Call::NextValue([direction, save, index, repeats_left]),
            );
        }
    }
    tally
}

/// Clocks near 0, where they wrap, and near where a narrower clock would wrap.
const CLOCKS: [u64; 9] = [
    0,
    1,
    1000,
    u32::MAX as u64,
    1 << 32,
    1 << 63,
    (1 << 63) + 1,
    u64::MAX - 1,
    u64::MAX,
];

pub fn leases() -> Tally {
    let mut tally = Tally::new("18 leases, at their limits and random");
    let mut random = Random::new(22);
    let numbers = [(); 1000].map(|()| random.number() >> random.below(64));
    for started in CLOCKS.into_iter().chain(numbers) {
        for duration in [0, 1, 2, 500, u32::MAX - 1, u32::MAX, random.word()] {
            let end = started.wrapping_add(duration.into());
            let near = [started, end].into_iter().flat_map(|clock| {
                (0..5).map(move |ticks| clock.wrapping_add(ticks).wrapping_sub(2))
            });
            let others = [random.number(), started ^ 1 << 32, !started];
            for now in near.chain(CLOCKS).chain(others) {
                frame(&mut tally, Call::LeaseExpired(started, duration, now));
            }
        }
    }
    tally
}
