//! The source's lines for a list on standard input.

use crate::bank::Bank;
use crate::call::Call;
use crate::{read_call, write_call};
use std::io::{self, BufRead, Write};
use std::process::ExitCode;

pub fn answers() -> ExitCode {
    let written = write_answers(io::stdin().lock(), io::BufWriter::new(io::stdout().lock()));
    if let Err(error) = &written {
        eprintln!("{error}");
    }
    ExitCode::from(if written.is_ok() { 0 } else { 2 })
}

fn write_answers(list: impl BufRead, mut out: impl Write) -> io::Result<()> {
    let mut bank = None;
    for (place, line) in list.lines().enumerate() {
        let wrong = |what| io::Error::other(format!("line {}: {what}", place + 1));
        let call = read_call::call(&line?).ok_or_else(|| wrong("not a call"))?;
        if let (None, Call::FromLanes(timing)) = (&bank, &call) {
            bank = Some(Bank::new(*timing));
        }
        let bank = bank.as_mut().ok_or_else(|| wrong("there is no bank yet"))?;
        let outcome = bank.step(&call);
        writeln!(out, "{}", outcome.line(write_call::code(&call)))?;
    }
    out.flush()
}
