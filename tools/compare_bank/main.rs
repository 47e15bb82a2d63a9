//! Compares a program that makes the bank's calls with the source's bank, on random lists of calls.
//! `run` beside this file says how it is used.

#[allow(dead_code)]
#[path = "../compare/answer.rs"]
mod answer;
#[path = "../compare/captures.rs"]
mod captures;
#[path = "../compare/damage.rs"]
mod damage;
#[allow(dead_code)]
#[path = "../compare/frame_original.rs"]
mod frame_original;
#[allow(dead_code)]
#[path = "../compare/moves.rs"]
mod moves;
#[allow(dead_code)]
#[path = "../compare/original.rs"]
mod original;
#[path = "../compare/random.rs"]
mod random;
#[allow(dead_code)]
#[path = "../compare/random_captures.rs"]
mod random_captures;
#[path = "../compare/rendering.rs"]
mod rendering;
#[path = "../compare/timings.rs"]
mod timings;

mod answers;
mod arguments;
mod bank;
mod bank_calls;
mod call;
mod clock;
mod compare;
mod cover_calls;
mod cover_counts;
mod cover_interrupts;
mod cover_numbers;
mod cover_services;
mod coverage;
mod differences;
mod lanes;
mod maker;
mod outcome;
mod program;
mod random_demands;
mod random_interrupts;
mod random_list;
mod random_services;
mod random_windows;
mod read_call;
mod record;
mod refusals;
mod scenes_faults;
mod scenes_frames;
mod scenes_refusals;
mod scenes_replies;
mod scenes_runs;
mod scenes_words;
mod script;
mod seen;
mod settings;
mod step;
mod stored_list;
mod windows;
mod words;
mod write_call;

use std::path::Path;
use std::process::ExitCode;

fn main() -> ExitCode {
    let arguments: Vec<String> = std::env::args().skip(1).collect();
    let words: Vec<&str> = arguments.iter().map(String::as_str).collect();
    match words[..] {
        ["--list"] => {
            print!("{}", stored_list::text());
            ExitCode::SUCCESS
        }
        ["--answers"] => answers::answers(),
        ["--seen-to-fail"] => ExitCode::from(u8::from(seen::unseen() > 0)),
        [program, calls, folder] => match calls.parse() {
            Ok(calls) => compared(Path::new(program), calls, Path::new(folder)),
            Err(_) => usage(),
        },
        _ => usage(),
    }
}

fn usage() -> ExitCode {
    eprintln!(
        "the arguments are --list, --answers, --seen-to-fail, or a program, a number of calls"
    );
    eprintln!("and a folder");
    ExitCode::from(2)
}

fn compared(program: &Path, calls: u64, folder: &Path) -> ExitCode {
    match compare::compare(program, calls, folder) {
        Ok(wrong) => ExitCode::from(u8::from(wrong > 0)),
        Err(error) => {
            eprintln!("the program could not be run: {error}");
            ExitCode::from(2)
        }
    }
}
