//! Wrong answers on purpose. If it is asked for, one number of what the library answers is changed
//! before it is compared. So the comparison can be seen to fail.

use std::ops::BitXorAssign;
use std::sync::atomic::{AtomicUsize, Ordering};

/// Calls by their kinds in the stored list. A reading with EDT on, a call on frames and the period
/// of a value have numbers of their own.
pub const SAMPLED_WITH_EDT: usize = 24;
pub const FRAMES: usize = 25;
pub const VALUE_PERIOD: usize = 26;

/// Calls of every kind.
pub const ANY: usize = 27;

/// The kind that is spoiled, or 0 for none, and the place of the number. Place 0 is what the call
/// returned. The slots follow.
static KIND: AtomicUsize = AtomicUsize::new(0);
static PLACE: AtomicUsize = AtomicUsize::new(0);

pub fn spoil(kind: usize, place: usize) {
    PLACE.store(place, Ordering::SeqCst);
    KIND.store(kind, Ordering::SeqCst);
}

pub fn spoil_nothing() {
    KIND.store(0, Ordering::SeqCst);
}

/// Every answer of the library goes through here.
pub fn pass(kind: usize, returned: &mut u32, slots: &mut [u16]) {
    pass_part(kind, 0, std::slice::from_mut(returned));
    pass_part(kind, 1, slots);
}

/// A part of an answer, whose first number is at a place.
pub fn pass_part<T: BitXorAssign + From<u8>>(kind: usize, first: usize, numbers: &mut [T]) {
    let spoiled = KIND.load(Ordering::Relaxed);
    if spoiled != ANY && spoiled != kind {
        return;
    }
    let place = PLACE.load(Ordering::Relaxed).checked_sub(first);
    if let Some(number) = place.and_then(|place| numbers.get_mut(place)) {
        *number ^= T::from(1);
    }
}
