//! The benches on the cycles of a bank. A cycle of the second bench does more than one of the
//! third. It has four more interrupts, turns the lanes twice, and decodes and counts four absent
//! windows.

use crate::agree::Agreed;
use crate::bank::{library_cycles, original_calls, original_cycles, Cycles, Left};
use crate::bank_calls;
use crate::bank_hardware::{Ideal, Registers};
use crate::bank_inputs::cycles;
use crate::benches::{pass, Bench};
use crate::spoil::{pass_part, ANY};
use std::rc::Rc;

/// The original's cycles, and the library's.
#[derive(Clone, Copy)]
struct Sides(fn(&Cycles, &mut Left), fn(&Cycles, &mut Left));

/// Either a loop of each side's own, or each call of the bank by itself, from the driver.
const LOOPS: Sides = Sides(original_cycles, library_cycles);
const CALLS: Sides = Sides(original_calls::<Registers>, bank_calls::measured);

/// The same calls, with the orders added up.
const SUMMED: Sides = Sides(original_calls::<Ideal>, bank_calls::summed);

/// All cycles of a run are one input.
fn bench(name: &'static str, cycles: Cycles, Sides(original, library): Sides) -> Bench {
    let calls = cycles.throttles.len();
    let runs: Rc<[Cycles]> = Rc::from([cycles]);
    let none = Left::default();
    let sides = [pass(&runs, none, original), pass(&runs, none, library)];
    Bench { name, calls, sides }
}

fn one_way() -> Cycles {
    Cycles {
        bidirectional: false,
        interrupts: 4,
        ..cycles(false)
    }
}

fn runs() -> [(&'static str, Cycles, Sides); 6] {
    [
        ("bank, a cycle with four replies", cycles(true), LOOPS),
        ("bank, a cycle without captures", cycles(false), LOOPS),
        ("bank, a cycle of one direction", one_way(), LOOPS),
        ("the first, each call by itself", cycles(true), CALLS),
        ("the second, each call by itself", cycles(false), CALLS),
        ("the third, each call by itself", one_way(), CALLS),
    ]
}

pub fn all() -> [Bench; 6] {
    runs().map(|(name, cycles, sides)| bench(name, cycles, sides))
}

/// Numbers that a run leaves: the slots of two buffers, and the counts.
const SLOTS: usize = 2 * 64;
const COUNTS: usize = 6 * 4;

fn same(cycles: &Cycles, Sides(original_side, library_side): Sides) -> bool {
    let [mut original, mut library] = [Left::default(); 2];
    original_side(cycles, &mut original);
    library_side(cycles, &mut library);
    pass_part(
        ANY,
        0,
        library.buffers.as_flattened_mut().as_flattened_mut(),
    );
    pass_part(ANY, SLOTS, library.counts.as_flattened_mut());
    original == library && whole(cycles, &original)
}

/// Every frame set was sent and completed, and every reply that was there was read as a speed.
fn whole(cycles: &Cycles, left: &Left) -> bool {
    let all = cycles.throttles.len() as u32;
    let decoded = if cycles.bidirectional { all - 1 } else { 0 };
    let (valid, invalid) = match cycles.present {
        true => (decoded, 0),
        false => (0, decoded),
    };
    let [completions, good, bad, bad_in_a_row, speeds, [started, completed, faults, _]] =
        left.counts;
    completions == [all; 4]
        && good == [valid; 4]
        && bad == [invalid; 4]
        && bad_in_a_row == bad
        && speeds.iter().all(|speed| (*speed > 0) == cycles.present)
        && [started, completed, faults] == [all, all, 0]
}

/// Each run, and then each with the orders added up.
pub fn agreed() -> Vec<Agreed> {
    let summed = runs().map(|(name, cycles, _)| (name, cycles, SUMMED));
    let runs = runs().into_iter().chain(summed);
    let agreed = |(name, cycles, sides)| (name, SLOTS + COUNTS, same(&cycles, sides));
    runs.map(agreed).collect()
}
