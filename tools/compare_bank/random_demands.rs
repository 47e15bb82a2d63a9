//! Random demands, runs of commands, lanes, counts and releases.

use crate::call::{Call, Run, SLOTS};
use crate::random::Random;

/// Mostly one of the four lanes.
pub fn motor(random: &mut Random) -> u64 {
    match random.below(10) {
        0 => above(random),
        lane => lane as u64 % 4,
    }
}

/// A lane that does not exist.
pub fn above(random: &mut Random) -> u64 {
    match random.below(8) {
        0 => random.number() | 1 << 40,
        1 => 4 + random.below(60) as u64,
        place => [4, 255, 256, 1 << 32, (1 << 32) + 1, u64::MAX][place - 2],
    }
}

/// Four throttles. Now and then one of them is too large.
pub fn throttles(now: u64, random: &mut Random) -> Call {
    let mut commands = [(); 4].map(|()| throttle(random));
    match random.below(16) {
        0 => commands = [0; 4],
        1 => commands[random.below(4)] = 2001,
        2 => commands[random.below(4)] = [2047, 2048, 65535][random.below(3)],
        3 => commands = [(); 4].map(|()| random.word() as u16),
        _ => (),
    }
    Call::CommandThrottles {
        commands,
        now,
        lease: lease(random),
    }
}

fn throttle(random: &mut Random) -> u16 {
    match random.below(6) {
        0 => 0,
        1 => [1, 2, 1999, 2000][random.below(4)],
        _ => random.below(2001) as u16,
    }
}

fn lease(random: &mut Random) -> u32 {
    match random.below(12) {
        0 => 0,
        1 => u32::MAX - random.below(2) as u32,
        2 => random.word(),
        3 => 100 + random.below(400) as u32,
        _ => random.below(12) as u32,
    }
}

/// Fresh, partly spent, at the last command, spent, or any fields.
pub fn special(random: &mut Random) -> Call {
    let direction = 20 + random.below(2) as u16;
    let (mut commands, mut index, mut left) = ([direction, 12], 0, 10);
    match random.below(10) {
        0..=3 => (),
        4 | 5 => (index, left) = (random.below(2) as u8, 1 + random.below(10) as u8),
        6 => (index, left) = (1, 1 + random.below(2) as u8),
        7 => index = [2, 3, 255][random.below(3)],
        8 => (index, left) = (random.below(2) as u8, 0),
        _ => {
            commands = [(); 2].map(|()| random.word() as u16);
            (index, left) = (random.below(3) as u8, random.word() as u8);
        }
    }
    let run = Run {
        commands,
        index,
        repeats_left: left,
    };
    Call::CommandSpecial {
        motor: motor(random),
        run,
    }
}

/// A wrong length, or the right one.
pub fn slots(random: &mut Random) -> usize {
    match random.below(3) {
        0 => [0, 1, 16, 63, 65, 80][random.below(6)],
        1 => random.below(81),
        _ => SLOTS,
    }
}

/// Counts. Most are close to their limit.
pub fn counts<const N: usize>(random: &mut Random) -> [u32; N] {
    [(); N].map(|()| match random.below(4) {
        0 | 1 => u32::MAX,
        2 => u32::MAX - random.below(6) as u32,
        _ => random.word(),
    })
}

pub fn look(random: &mut Random) -> Call {
    match random.below(6) {
        0 => Call::IsBidirectional,
        1 => Call::IsFaulted,
        2 => Call::Stats,
        3 => Call::RequestedValues,
        4 => Call::CommandPending,
        _ => Call::ReplyStats,
    }
}

/// A view. Now and then it is of a lane that does not exist, or of buffers with a wrong length.
pub fn view(random: &mut Random) -> Call {
    let motor = motor(random);
    let lengths = match random.below(6) {
        0 => [slots(random), slots(random)],
        _ => [SLOTS; 2],
    };
    Call::View { motor, lengths }
}

pub fn write(random: &mut Random) -> Call {
    Call::Write {
        buffer: random.below(2),
        slot: random.below(SLOTS),
        value: random.word() as u16,
    }
}

/// Two times that mostly differ by little. Many are on both sides of the wrap.
pub fn release(random: &mut Random) -> Call {
    let near = random.below(4) as u32;
    let last = match random.below(3) {
        0 => u32::MAX - near,
        1 => near,
        _ => random.word(),
    };
    let ticks = match random.below(8) {
        0 => random.word(),
        1 => (1 + random.below(3) as u32).wrapping_neg(),
        _ => random.below(4) as u32,
    };
    Call::FallbackReleaseDue {
        now: last.wrapping_add(ticks),
        last,
    }
}
