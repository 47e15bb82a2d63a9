//! Compares the numbers of the two sides. If they are not the same, nothing is measured.

use crate::spoil::{spoil, spoil_nothing, ANY};
use crate::{bank_benches, benches, frame_benches};

/// What is compared, how many numbers the library gives there, and whether both sides give the same.
pub type Agreed = (&'static str, usize, bool);

fn all() -> Vec<Agreed> {
    let (replies, frames) = (benches::agreed(), frame_benches::agreed());
    [&replies[..], &frames, &bank_benches::agreed()].concat()
}

/// Names what is not the same.
pub fn agree() -> bool {
    let mut agree = true;
    for (name, _, same) in all() {
        if !same {
            eprintln!("the library and the original do not agree: {name}");
            agree = false;
        }
    }
    agree
}

/// Whether everything is the same, except if a number of the library's is spoiled.
pub fn seen_to_fail() -> bool {
    let unspoiled = all();
    let mut right = unspoiled.iter().all(|(_, _, same)| *same);
    let most = unspoiled.iter().map(|(_, numbers, _)| *numbers).max();
    let mut wrong = 0;
    for place in 0..most.unwrap_or(0) {
        spoil(ANY, place);
        for (name, numbers, same) in all() {
            wrong += u64::from(place < numbers);
            if same != (place >= numbers) {
                println!("not as it should be: {name}, number {place}");
                right = false;
            }
        }
    }
    spoil_nothing();
    println!("{wrong} wrong answers, seen: {right}");
    right
}
