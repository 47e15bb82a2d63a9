//! What a part of the comparison has found: how many inputs it compared, how many differ, and the
//! smallest few that do.

const SHOWN: usize = 3;

/// Room for document 01's refusals up to 17. The answers are counted by them; 0 is done.
const NUMBERS: usize = 18;

pub struct Tally {
    pub name: &'static str,
    pub compared: u64,
    pub differ: u64,
    /// How often each answer was the right one. A part that only meets refusals would show little.
    answers: [u64; NUMBERS],
    smallest: Vec<(usize, String)>,
    notes: Vec<String>,
}

impl Tally {
    pub fn new(name: &'static str) -> Self {
        Self {
            name,
            compared: 0,
            differ: 0,
            answers: [0; NUMBERS],
            smallest: Vec::new(),
            notes: Vec::new(),
        }
    }

    /// Counts one input. `refusal` is its right answer. If it differs, `text` describes it, and
    /// `size` orders such inputs.
    pub fn compare(
        &mut self,
        refusal: u32,
        same: bool,
        size: usize,
        text: impl FnOnce() -> String,
    ) {
        self.compared += 1;
        self.answers[refusal as usize] += 1;
        if !same {
            self.differ += 1;
            self.keep(size, text);
        }
    }

    fn keep(&mut self, size: usize, text: impl FnOnce() -> String) {
        let place = self.smallest.partition_point(|kept| kept.0 <= size);
        if place < SHOWN {
            self.smallest.insert(place, (size, text()));
            self.smallest.truncate(SHOWN);
        }
    }

    /// A count that must be a known number.
    pub fn expect(&mut self, what: &str, count: u64, right: u64) {
        self.notes
            .push(format!("{what}: {count} ({right} expected)"));
        if count != right {
            self.differ += 1;
        }
    }

    /// Takes in what another thread has found of the same part.
    pub fn join(mut self, other: Self) -> Self {
        self.compared += other.compared;
        self.differ += other.differ;
        for (sum, more) in self.answers.iter_mut().zip(other.answers) {
            *sum += more;
        }
        for (size, text) in other.smallest {
            self.keep(size, || text);
        }
        self.notes.extend(other.notes);
        self
    }

    pub fn report(&self) {
        println!(
            "{}: {} compared, {} differ",
            self.name, self.compared, self.differ
        );
        let met =
            |(number, &times): (usize, &u64)| (times > 0).then(|| format!("{number} x {times}"));
        let answers: Vec<String> = self.answers.iter().enumerate().filter_map(met).collect();
        println!("    answers: {}", answers.join(", "));
        for note in &self.notes {
            println!("    {note}");
        }
        for (_, text) in &self.smallest {
            println!("    differs: {text}");
        }
    }
}
