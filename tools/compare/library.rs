//! The library's calls, through its archive. Each says how many slots it lends. If the callers test
//! for refusal 13 (wrong length), they give a wrong number on purpose.

use crate::answer::{Answer, UNTOUCHED};
use crate::exports::*;
use crate::spoil::{self, SAMPLED_WITH_EDT, VALUE_PERIOD};

/// The slots that a word, a value, a reading and a period with its step take.
pub const WORD: usize = 2;
pub const VALUE: usize = 1;
pub const READING: usize = 3;
pub const PERIOD: usize = 2;

/// The kind is that of the stored list.
fn lent(kind: usize, slots: usize, call: impl FnOnce(*mut u16) -> u32) -> Answer {
    let mut answer = Answer::refused(0);
    assert!(slots <= answer.slots.len());
    answer.refusal = call(answer.slots.as_mut_ptr());
    spoil::pass(kind, &mut answer.refusal, &mut answer.slots);
    answer
}

/// An empty capture has no address, as from a host in C.
fn address(samples: &[u16]) -> *const u16 {
    match samples.len() {
        0 => std::ptr::null(),
        _ => samples.as_ptr(),
    }
}

pub fn reply_transitions_for(value: u32) -> u32 {
    let mut word = unsafe { kuzhenga_reply_transitions_for(value) };
    spoil::pass(1, &mut word, &mut []);
    word
}

pub fn reply_transitions(samples: &[u16], mask: u32, slots: usize) -> Answer {
    let (from, n) = (address(samples), samples.len());
    lent(4, slots, |word| unsafe {
        kuzhenga_reply_transitions(from, n, mask, word, slots)
    })
}

pub fn decode_gcr(word: u32, slots: usize) -> Answer {
    lent(2, slots, |value| unsafe {
        kuzhenga_decode_gcr(word, value, slots)
    })
}

pub fn reply_from_value(value: u32, edt: u32, slots: usize) -> Answer {
    lent(3, slots, |reading| unsafe {
        kuzhenga_reply_from_value(value, edt, reading, slots)
    })
}

pub fn decode_sampled_reply(samples: &[u16], mask: u32, edt: u32, slots: usize) -> Answer {
    let (from, n) = (address(samples), samples.len());
    let kind = if edt == 0 { 5 } else { SAMPLED_WITH_EDT };
    lent(kind, slots, |reading| unsafe {
        kuzhenga_decode_sampled_reply(from, n, mask, edt, reading, slots)
    })
}

pub fn value_period(value: u32, slots: usize) -> Answer {
    lent(VALUE_PERIOD, slots, |period| unsafe {
        kuzhenga_value_period(value, period, slots)
    })
}

pub fn period_value(period: u32, slots: usize) -> Answer {
    lent(6, slots, |value| unsafe {
        kuzhenga_period_value(period, value, slots)
    })
}

/// The refusal, and a buffer of `length` samples after the call with a few samples behind it.
pub fn simulate_reply(length: usize, value: u32, lead: usize, mask: u32) -> (u32, Vec<u16>) {
    let mut buffer = vec![UNTOUCHED; length + BEHIND];
    let to = match length {
        0 => std::ptr::null_mut(),
        _ => buffer.as_mut_ptr(),
    };
    let mut refusal = unsafe { kuzhenga_simulate_reply(to, length, value, lead, mask) };
    spoil::pass(7, &mut refusal, &mut buffer);
    (refusal, buffer)
}

/// Samples behind a buffer that no call may touch.
pub const BEHIND: usize = 8;
