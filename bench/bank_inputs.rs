//! What is measured of a bank: cycles with throttles and captures of their own.

use crate::bank::Cycles;
use crate::captures::{levels, noisy, Ending};
use crate::frame_inputs::CLOCKS;
use crate::frame_original;
use crate::inputs::MASK;
use crate::random::Random;
use crate::rendering;
use ferrowasp_output::dshot_reply::{reply_transitions_for, REPLY_WINDOW_SAMPLES};

const CYCLES: usize = 128;

/// Samples until an ESC answers, which takes about 30 us.
const LEAD: usize = 68;

/// A bidirectional bank. Its captures are jittered replies, each with a speed. The port's other
/// pins are at random.
pub fn cycles(present: bool) -> Cycles {
    let mut random = Random::new(8);
    let throttle = |random: &mut Random| 1 + random.below(2000) as u16;
    let (clock, rate) = CLOCKS;
    Cycles {
        timing: frame_original::from_clocks(clock, rate).expect("it is one"),
        bidirectional: true,
        present,
        mask: MASK,
        interrupts: 8,
        throttles: (0..CYCLES)
            .map(|_| [(); 4].map(|()| throttle(&mut random)))
            .collect(),
        captures: (0..4 * CYCLES).flat_map(|_| window(&mut random)).collect(),
    }
}

/// Periods of nine bits with the highest set, shifted left by up to 6. The shortest is 256 us.
fn window(random: &mut Random) -> Vec<u16> {
    let period = 256 + random.below(256);
    let value = period + 512 * random.below(7);
    let times = rendering::times(reply_transitions_for(value as u16), random);
    let levels = levels(LEAD, &times, Ending::Closed, REPLY_WINDOW_SAMPLES);
    noisy(&levels, MASK, random)
}
