//! The cycles of `bank.rs` as calls from C: `bank_calls.c` makes them.

use crate::bank::{Cycles, Left, LEASE_MS};

/// `struct cycles` of `bank_calls.h`.
#[repr(C)]
struct Given {
    timing: *const u16,
    bidirectional: u32,
    present: u16,
    mask: u16,
    interrupts: usize,
    count: usize,
    throttles: *const u16,
    lease_ms: u32,
    captures: *const u16,
    first: *mut u16,
    second: *mut u16,
}

extern "C" {
    fn called_cycles(cycles: *const Given, counts: *mut u32);
    fn called_cycles_summed(cycles: *const Given, counts: *mut u32);
}

fn given(cycles: &Cycles, left: &mut Left) -> Given {
    let [first, second] = left.buffers.each_mut().map(|four| four.as_flattened_mut());
    Given {
        timing: cycles.timing.as_ptr(),
        bidirectional: cycles.bidirectional.into(),
        present: cycles.present.into(),
        mask: cycles.mask,
        interrupts: cycles.interrupts,
        count: cycles.throttles.len(),
        throttles: cycles.throttles.as_flattened().as_ptr(),
        lease_ms: LEASE_MS,
        captures: cycles.captures.as_ptr(),
        first: first.as_mut_ptr(),
        second: second.as_mut_ptr(),
    }
}

pub fn measured(cycles: &Cycles, left: &mut Left) {
    let given = given(cycles, left);
    unsafe { called_cycles(&given, left.counts.as_flattened_mut().as_mut_ptr()) }
}

/// With the orders added up.
pub fn summed(cycles: &Cycles, left: &mut Left) {
    let given = given(cycles, left);
    unsafe { called_cycles_summed(&given, left.counts.as_flattened_mut().as_mut_ptr()) }
}
