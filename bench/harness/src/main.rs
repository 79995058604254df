//! Compares the unit's library with an independent implementation by hand, and plays cases of which valgrind counts the
//! instructions.
//!
//! ```text
//! harness compare              compares both on random inputs, and ends with the first on which they differ
//! harness cases                lists the cases: name, function, and what it is given
//! harness play CASE unit|hand  has one of them play a case once, and prints what it came to
//! ```

mod by_hand;
mod calls;
mod cases;
mod compare;
mod hand;
mod inputs;
mod lent;
mod random;
mod sheets;
mod tally;
mod types;
mod unit;

use cases::CASES;
use hand::HAND;
use std::env;
use std::process::ExitCode;
use unit::UNIT;

/// Compares, and prints what it came to.
fn run_compare() -> ExitCode {
    match compare::compare() {
        Ok(lines) => {
            println!("{}", lines.join("\n"));
            ExitCode::SUCCESS
        }
        Err(difference) => {
            println!("{difference}");
            ExitCode::FAILURE
        }
    }
}

/// Prints the cases, a line each, with tabs between.
fn list_cases() -> ExitCode {
    for (name, input) in &CASES {
        println!("{name}\t{}\t{}", input.function(), input.what());
    }
    ExitCode::SUCCESS
}

/// Has an implementation play a case, where there are such.
fn play(case: &str, implementation: &str) -> Option<String> {
    let (_, input) = CASES.iter().find(|(name, _)| *name == case)?;
    match implementation {
        "unit" => Some(cases::play(input, &UNIT)),
        "hand" => Some(cases::play(input, &HAND)),
        _ => None,
    }
}

/// Says how the program is called.
fn usage() -> ExitCode {
    eprintln!("usage: harness compare, harness cases, or harness play CASE unit|hand");
    ExitCode::from(2)
}

fn main() -> ExitCode {
    let args: Vec<String> = env::args().skip(1).collect();
    let args: Vec<&str> = args.iter().map(String::as_str).collect();
    match args[..] {
        ["compare"] => run_compare(),
        ["cases"] => list_cases(),
        ["play", case, implementation] => match play(case, implementation) {
            Some(answer) => {
                println!("{answer}");
                ExitCode::SUCCESS
            }
            None => usage(),
        },
        _ => usage(),
    }
}
