//! An evaluator of rules written from the documents alone, and the driver that compares the
//! program with it.

mod bench;
mod check;
mod compare;
mod file;
mod generate;
mod host;
mod play;
mod refusal;
mod rng;
mod rules;
mod script;
mod spoil;
mod step;
mod term;
#[cfg(test)]
mod tests;
mod types;
mod words;

use std::io::{self, BufRead, BufWriter, Write};
use std::process::ExitCode;

const USAGE: &str = "\
reference compare PROGRAM [SEED [CALLS]]  compares the answers of `PROGRAM script` with the model's
reference replay PROGRAM SCRIPT           compares them on the script in a file
reference generate SEED NUMBER            prints the script with this number
reference script                          answers a script on standard input
reference bench                           times of load, check and run";

/// Seed and calls where none are said.
const SEED: u64 = 1;
const CALLS: usize = 20_000;
/// Terms are trees, and they may be 4,096 nodes deep.
const STACK: usize = 256 << 20;

fn main() -> ExitCode {
    let worker = std::thread::Builder::new().stack_size(STACK).spawn(work);
    match worker.map(|thread| thread.join()) {
        Ok(Ok(Ok(true))) => ExitCode::SUCCESS,
        Ok(Ok(Err(why))) => {
            eprintln!("reference: {why}");
            ExitCode::FAILURE
        }
        _ => ExitCode::FAILURE,
    }
}

fn work() -> Result<bool, String> {
    let arguments: Vec<String> = std::env::args().skip(1).collect();
    let words: Vec<&str> = arguments.iter().map(String::as_str).collect();
    match words.as_slice() {
        ["compare", program] => compare::compare(program, SEED, CALLS),
        ["compare", program, seed] => compare::compare(program, number(seed)?, CALLS),
        ["compare", program, seed, calls] => {
            let calls = usize::try_from(number(calls)?).map_err(|e| e.to_string())?;
            compare::compare(program, number(seed)?, calls)
        }
        ["replay", program, path] => compare::replay(program, path),
        ["generate", seed, which] => generated(number(seed)?, number(which)?),
        ["script"] => script(),
        ["bench"] => {
            bench::bench();
            Ok(true)
        }
        _ => Err(format!("usage:\n{USAGE}")),
    }
}

fn number(word: &str) -> Result<u64, String> {
    word.parse()
        .map_err(|_| format!("{word}: a number is expected"))
}

fn generated(seed: u64, which: u64) -> Result<bool, String> {
    let mut out = BufWriter::new(io::stdout().lock());
    for line in generate::script(seed, which, compare::BATCH).lines {
        out.write_all(&line)
            .and_then(|()| out.write_all(b"\n"))
            .map_err(|e| e.to_string())?;
    }
    out.flush().map_err(|e| e.to_string())?;
    Ok(true)
}

/// Answers the lines of standard input.
fn script() -> Result<bool, String> {
    let mut session = script::Session::default();
    let mut out = BufWriter::new(io::stdout().lock());
    for line in io::stdin().lock().split(b'\n') {
        let line = line.map_err(|e| e.to_string())?;
        if let Some(answer) = session.answer(&line) {
            writeln!(out, "{answer}").map_err(|e| e.to_string())?;
        }
    }
    out.flush().map_err(|e| e.to_string())?;
    Ok(true)
}
