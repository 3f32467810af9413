//! Program `generate`: cases from a seed, for use outside this project.
//!
//! `generate report SEED ROUNDS` tells how often the cases reach each answer, refusal, stop, clause
//! and branch, and fails if one was never reached. `generate trace SEED EVENTS` writes a trace with
//! so many random events, `generate damaged SEED EVENTS` the same with damage. `generate longest`,
//! `generate too_long` and `generate past_the_clock` each write one fixed trace. Assumes nothing.

use second::generate::damage::damaged_trace;
use second::generate::long::{longest, past_the_clock, too_long};
use second::generate::random::Random;
use second::generate::runs::Run;
use second::generate::survey::survey;
use std::io::{self, Write};
use std::process::ExitCode;

const USAGE: &str = "usage: generate report SEED ROUNDS
       generate trace SEED EVENTS
       generate damaged SEED EVENTS
       generate longest | too_long | past_the_clock";

fn main() -> ExitCode {
    let words: Vec<String> = std::env::args().skip(1).collect();
    match answer(&words) {
        Ok(code) => code,
        Err(fault) => {
            eprintln!("generate: {fault}\n{USAGE}");
            ExitCode::FAILURE
        }
    }
}

fn answer(words: &[String]) -> Result<ExitCode, String> {
    match words {
        [command] => fixed(command),
        [command, seed, amount] => seeded(command, number(seed)?, number(amount)?),
        _ => Err("expected one word or three".to_string()),
    }
}

fn fixed(command: &str) -> Result<ExitCode, String> {
    match command {
        "longest" => write_out(&longest()),
        "too_long" => write_out(&too_long()),
        "past_the_clock" => write_out(&past_the_clock()),
        _ => Err(format!("unknown command `{command}`")),
    }
}

fn seeded(command: &str, seed: u64, amount: u64) -> Result<ExitCode, String> {
    match command {
        "report" => report(seed, amount),
        "trace" => write_out(&Run::any(seed, amount as usize).trace()),
        "damaged" => {
            let run = Run::any(seed, amount as usize);
            write_out(&damaged_trace(&mut Random::new(seed), &run))
        }
        _ => Err(format!("unknown command `{command}`")),
    }
}

fn number(word: &str) -> Result<u64, String> {
    word.parse()
        .map_err(|_| format!("`{word}` is no whole number"))
}

fn report(seed: u64, rounds: u64) -> Result<ExitCode, String> {
    let coverage = survey(seed, rounds);
    write_out(coverage.report().as_bytes())?;
    if coverage.missing().is_empty() {
        Ok(ExitCode::SUCCESS)
    } else {
        Ok(ExitCode::FAILURE)
    }
}

fn write_out(bytes: &[u8]) -> Result<ExitCode, String> {
    let written = io::stdout().lock().write_all(bytes);
    written.map_err(|error| error.to_string())?;
    Ok(ExitCode::SUCCESS)
}
