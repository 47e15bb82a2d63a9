//! Runs a part of the comparison on two threads, each with numbers of its own.

use crate::random::Random;
use crate::tally::Tally;

const THREADS: u64 = 2;

pub fn shared(count: u64, seed: u64, some: fn(u64, Random) -> Tally) -> Tally {
    let share = |thread| (count + thread) / THREADS;
    std::thread::scope(|scope| {
        let start = |thread| scope.spawn(move || some(share(thread), Random::new(seed + thread)));
        let threads: Vec<_> = (0..THREADS).map(start).collect();
        let found = threads
            .into_iter()
            .map(|thread| thread.join().expect("a thread ends"));
        found.reduce(Tally::join).expect("there are threads")
    })
}
