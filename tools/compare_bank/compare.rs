//! Puts random lists to the source and to the program, on two threads.

use crate::coverage::Coverage;
use crate::differences::Differences;
use crate::program::Program;
use crate::random_list;
use std::io;
use std::path::Path;

const THREADS: u64 = 2;

struct Found {
    lists: u64,
    calls: u64,
    /// Bytes of the longest list.
    longest: usize,
    seen: Coverage,
    differences: Differences,
}

/// How many lines differ plus how many cases are at zero.
pub fn compare(program: &Path, calls: u64, folder: &Path) -> io::Result<u64> {
    let found = std::thread::scope(|scope| {
        let start = |thread| {
            let program = Program::new(program, folder, thread);
            scope.spawn(move || some(&program, calls.div_ceil(THREADS), thread))
        };
        let threads: Vec<_> = (0..THREADS).map(start).collect();
        let ended = threads
            .into_iter()
            .map(|thread| thread.join().expect("a thread ends"));
        let found = ended.collect::<io::Result<Vec<Found>>>()?;
        Ok::<_, io::Error>(found.into_iter().reduce(Found::join))
    })?;
    let found = found.expect("there are threads");
    println!(
        "{} lists, {} calls, the longest list has {} bytes",
        found.lists, found.calls, found.longest
    );
    let at_zero = found.seen.report();
    found.differences.report(folder)?;
    println!("{} lines differ", found.differences.lines);
    Ok(found.differences.lines + at_zero)
}

/// Every second list, until there are enough calls.
fn some(program: &Program, calls: u64, thread: u64) -> io::Result<Found> {
    let mut found = Found {
        lists: 0,
        calls: 0,
        longest: 0,
        seen: Coverage::new(),
        differences: Differences::default(),
    };
    let mut number = thread;
    while found.calls < calls {
        let record = random_list::list(number, &mut found.seen);
        let given = program.run(&record.text())?;
        found.differences.compare(number, &record, &given);
        found.lists += 1;
        found.calls += record.calls.len() as u64;
        found.longest = found.longest.max(record.bytes);
        number += THREADS;
    }
    Ok(found)
}

impl Found {
    fn join(mut self, other: Self) -> Self {
        self.lists += other.lists;
        self.calls += other.calls;
        self.longest = self.longest.max(other.longest);
        self.seen.join(other.seen);
        self.differences.join(other.differences);
        self
    }
}
