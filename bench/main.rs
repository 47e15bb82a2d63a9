//! Measures the library, through its archive, and the source that it is ported from. Prints one row
//! for each bench: nanoseconds and instructions of a call on both sides, and the ratio of the
//! library's to the original's.

mod agree;
mod bank;
mod bank_benches;
mod bank_calls;
mod bank_hardware;
mod bank_inputs;
mod bank_lanes;
mod benches;
mod calls;
mod frame_benches;
mod frame_inputs;
mod frames;
mod inputs;
mod instructions;
mod time;

// Shared with the comparison; a bench uses a part of each.
#[allow(dead_code)]
#[path = "../tools/compare/answer.rs"]
mod answer;
#[allow(dead_code)]
#[path = "../tools/compare/captures.rs"]
mod captures;
#[allow(dead_code)]
#[path = "../tools/compare/exports.rs"]
mod exports;
#[allow(dead_code)]
#[path = "../tools/compare/frame_original.rs"]
mod frame_original;
#[allow(dead_code)]
#[path = "../tools/compare/library.rs"]
mod library;
#[allow(dead_code)]
#[path = "../tools/compare/original.rs"]
mod original;
#[allow(dead_code)]
#[path = "../tools/compare/random.rs"]
mod random;
#[allow(dead_code)]
#[path = "../tools/compare/rendering.rs"]
mod rendering;
#[allow(dead_code)]
#[path = "../tools/compare/spoil.rs"]
mod spoil;

use benches::Bench;
use std::process::ExitCode;

const HEAD: [&str; 2] = [
    "                                 original   library          original   library",
    "a call of                              ns        ns  ratio     instr.    instr.  ratio",
];

fn all() -> Vec<Bench> {
    benches::all()
        .into_iter()
        .chain(frame_benches::all())
        .chain(bank_benches::all())
        .collect()
}

/// Without numbers it prints the table. If it runs itself, it gives itself numbers: a bench to
/// time, or a bench, a side and how many passes to make.
fn main() -> ExitCode {
    let words: Vec<String> = std::env::args().skip(1).collect();
    if words == ["--seen-to-fail"] {
        return ExitCode::from(u8::from(!agree::seen_to_fail()));
    }
    let numbers: Vec<usize> = words.iter().flat_map(|word| word.parse()).collect();
    match numbers[..] {
        [bench] => {
            let [original, library] = time::here(&all()[bench]);
            println!("{original} {library}");
        }
        [bench, side, passes] => {
            let benches = all();
            (0..passes).for_each(|_| benches[bench].sides[side]());
        }
        _ => return table(),
    }
    ExitCode::SUCCESS
}

fn table() -> ExitCode {
    if !agree::agree() {
        return ExitCode::FAILURE;
    }
    println!("{}", HEAD.join("\n"));
    for (number, bench) in all().iter().enumerate() {
        let ns = time::nanoseconds(number);
        let instructions = instructions::each_call(bench, number);
        let (Some(ns), Some(instructions)) = (ns, instructions) else {
            eprintln!("{} could not be measured; is valgrind here?", bench.name);
            return ExitCode::FAILURE;
        };
        row(bench.name, ns, instructions);
    }
    ExitCode::SUCCESS
}

fn row(name: &str, ns: [f64; 2], instructions: [f64; 2]) {
    let ratio = |[original, library]: [f64; 2]| library / original;
    println!(
        "{name:33}{:8.1}{:10.1}{:7.2}{:11.1}{:10.1}{:7.2}",
        ns[0],
        ns[1],
        ratio(ns),
        instructions[0],
        instructions[1],
        ratio(instructions),
    );
}
