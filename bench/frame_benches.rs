//! The benches on frames.

use crate::agree::Agreed;
use crate::benches::{pass, Bench};
use crate::exports::kuzhenga_timing_from_clocks;
use crate::frame_inputs::{clocks, sets, CLOCKS};
use crate::frame_original;
use crate::frames::{library_calls, library_sequences, original_calls, original_sequences};
use crate::frames::{Sequences, Set};
use crate::spoil::{self, FRAMES};
use ferrowasp_output::dshot::{DshotTiming, DshotTimingError};
use std::hint::black_box;
use std::rc::Rc;

/// The timing as the source has it, and as the library's slots.
fn timing() -> (DshotTiming, [u16; 4]) {
    let (clock, rate) = CLOCKS;
    let timing = DshotTiming::from_clocks(clock, rate);
    let slots = frame_original::from_clocks(clock, rate);
    (timing.expect("it is one"), slots.expect("it is one"))
}

/// The sequences of a set go where the last ones were, as in a bank's own buffers.
fn sequences(
    name: &'static str,
    original: impl Fn(&Set, DshotTiming, &mut Sequences) + 'static,
    library: impl Fn(&Set, &[u16; 4], &mut Sequences) -> u32 + 'static,
) -> Bench {
    let sets: Rc<[Set]> = Rc::from(sets());
    let (timing, slots) = timing();
    let none = Sequences::default();
    let original = move |set: &Set, out: &mut Sequences| original(set, black_box(timing), out);
    let library = move |set: &Set, out: &mut Sequences| library(set, black_box(&slots), out);
    Bench {
        name,
        calls: sets.len(),
        sides: [pass(&sets, none, original), pass(&sets, none, library)],
    }
}

#[inline(never)]
fn original_timing(clock: u32, rate: u32) -> Result<DshotTiming, DshotTimingError> {
    DshotTiming::from_clocks(clock, rate)
}

/// On both sides the timing ends up in the caller's slots and the refusal in a number.
fn timings(name: &'static str) -> Bench {
    let pairs: Rc<[(u32, u32)]> = Rc::from(clocks());
    let original =
        |&(clock, rate): &(u32, u32), slots: &mut [u16; 4]| match original_timing(clock, rate) {
            Ok(timing) => {
                let DshotTiming {
                    arr,
                    zero_high,
                    one_high,
                    reply_sample_arr,
                } = timing;
                *slots = [arr, zero_high, one_high, reply_sample_arr];
                0
            }
            Err(DshotTimingError::ZeroTimerClock) => 1,
            Err(DshotTimingError::ZeroBitrate) => 2,
            Err(DshotTimingError::PeriodTooShort) => 3,
            Err(DshotTimingError::PeriodTooLong) => 4,
        };
    let library = |&(clock, rate): &(u32, u32), slots: &mut [u16; 4]| unsafe {
        kuzhenga_timing_from_clocks(clock, rate, slots.as_mut_ptr(), 4)
    };
    Bench {
        name,
        calls: pairs.len(),
        sides: [
            pass(&pairs, [0; 4], original),
            pass(&pairs, [0; 4], library),
        ],
    }
}

pub fn all() -> [Bench; 3] {
    [
        sequences("four sequences", original_sequences, library_sequences),
        sequences("four sequences, five calls", original_calls, library_calls),
        timings("from_clocks"),
    ]
}

/// The library's sequences of a set, in one call or in five.
type Call = fn(&Set, &[u16; 4], &mut Sequences) -> u32;

fn same_sequences(set: &Set, library: Call) -> bool {
    let (timing, slots) = timing();
    let [mut right, mut given] = [Sequences::default(); 2];
    original_sequences(set, timing, &mut right);
    let mut refusal = library(set, &slots, &mut given);
    given.pass(&mut refusal);
    refusal == 0 && given == right
}

fn same_timing(&(clock, rate): &(u32, u32)) -> bool {
    let mut slots = [0; 4];
    let mut refusal = unsafe { kuzhenga_timing_from_clocks(clock, rate, slots.as_mut_ptr(), 4) };
    spoil::pass(FRAMES, &mut refusal, &mut slots);
    refusal == 0 && frame_original::from_clocks(clock, rate) == Ok(slots)
}

/// Beside the refusal there are four first duties and 64 slots, or four counts of a timing.
pub fn agreed() -> [Agreed; 3] {
    let sequences = |name, library: Call| {
        let same = |set: &Set| same_sequences(set, library);
        (name, 1 + 4 + 64, sets().iter().all(same))
    };
    [
        sequences("four sequences", library_sequences),
        sequences("four sequences, five calls", library_calls),
        ("from_clocks", 1 + 4, clocks().iter().all(same_timing)),
    ]
}
