//! Clocks and bit rates, most of them at the limits of a timing.

use crate::random::Random;

pub const DSHOT_RATES: [u32; 4] = [150_000, 300_000, 600_000, 1_200_000];

/// Numbers at which a clock or a rate may be taken for another: small numbers, and numbers near
/// powers of 2.
pub fn limits() -> Vec<u32> {
    let powers = [15, 16, 17, 24, 30, 31, 32].map(|power| 1u64 << power);
    let near = powers.into_iter().flat_map(|power| power - 3..=power + 3);
    let far = near.filter_map(|number| u32::try_from(number).ok());
    (0..=20).chain(far).chain(DSHOT_RATES).collect()
}

/// A number of any size.
fn any(random: &mut Random) -> u32 {
    random.word() >> random.below(32)
}

/// A clock of a few ticks more or less, if there is one.
fn near(clock: u64, random: &mut Random) -> u32 {
    let near = clock
        .saturating_add(random.below(7) as u64)
        .saturating_sub(3);
    near.min(u32::MAX.into()) as u32
}

/// How often replies are sampled, as document 01 has it.
fn reply_samples(rate: u32) -> u64 {
    u64::from(rate) * 15 / 4
}

/// A clock at which the period of a rate is about the shortest or the longest.
fn at_the_ends(rate: u64, samples: u64, random: &mut Random) -> u64 {
    match random.below(6) {
        0 => rate * 7 / 2,
        1 => rate * 4,
        2 => rate * 131_073 / 2,
        3 => rate * 65_537,
        4 => samples * 3 / 2,
        _ => samples * 2,
    }
}

/// A clock at which one of the two periods is about to be rounded the other way.
fn at_a_half(rate: u64, samples: u64, random: &mut Random) -> u64 {
    let unit = if random.one_in(2) { rate } else { samples };
    let most = (u64::from(u32::MAX) / unit.max(1)).min(65_538);
    let periods = u64::from(random.word()) % (most + 1);
    periods * unit + unit / 2
}

/// A clock and a rate.
pub fn pair(random: &mut Random) -> (u32, u32) {
    let rate = match random.below(4) {
        0 => DSHOT_RATES[random.below(DSHOT_RATES.len())],
        1 => random.word() >> 16,
        _ => any(random),
    };
    let (wide, samples) = (u64::from(rate), reply_samples(rate));
    match random.below(6) {
        0 | 1 => (near(at_the_ends(wide, samples, random), random), rate),
        2 | 3 => (near(at_a_half(wide, samples, random), random), rate),
        4 => (any(random), rate),
        _ => (random.word(), random.word()),
    }
}
