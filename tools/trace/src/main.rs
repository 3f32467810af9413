//! Program `trace`, for bench technicians: `trace asm` turns readable text into the bytes of a
//! trace, and `trace dis` turns bytes back into text.
//!
//! # The text
//!
//! One record a line; what follows a `#` is a comment, and empty lines are skipped. Numbers are
//! decimal, or hexadecimal after `0x`.
//!
//! ```text
//! machine 2 3 1        # processors, tasks, resources
//! task 10 20 0x0001    # budget Q, period P, declared set (bit r for resource r)
//! task 8 20 0,2        # ... or the declared resources as a list
//! task 6 30 none       # ... or none at all
//! wake 2               # also: suspend 2
//! dispatch 2           # also: preempt 2, recharge 2
//! elapse 4
//! lock 2 0             # task, resource; also: unlock 2 0
//! record 18 01 00      # a whole record of any kind: its kind, then its body in hexadecimal
//! raw 07 00 01         # bytes as they are, in hexadecimal
//! ```
//!
//! Both ways are lossless, for damaged files too. A record of unknown kind or of the wrong length
//! for its kind is written as `record`; from the first place at which no whole record can be read
//! (a cut file, or a length below 2) the rest of the file is written as `raw`.
//!
//! Assumes nothing of its input. Whether a trace makes sense is for `replay` to tell.

use std::io::{self, Read, Write};
use std::process::ExitCode;
use trace::{assemble, disassemble};

const HELP: &str = "\
usage: trace asm [FILE]             text to trace bytes
       trace dis [--offsets] [FILE] trace bytes to text
       trace --help                 this page

Without FILE, standard input is read. The result goes to standard output.
--offsets adds to each line the offset at which its bytes stand, as `stop` lines name it.

The text has one record a line; `#` starts a comment; numbers are decimal or 0x...:
  machine PROCESSORS TASKS RESOURCES
  task Q P SET          SET is 0x0005, or a list such as 0,2, or none
  wake TASK             suspend TASK
  dispatch SERVER       preempt SERVER       recharge SERVER
  elapse TICKS
  lock TASK RESOURCE    unlock TASK RESOURCE
  record KIND HEX..     a whole record of any kind, with its body in hexadecimal
  raw HEX..             bytes as they are, in hexadecimal
";

fn main() -> ExitCode {
    let words: Vec<String> = std::env::args().skip(1).collect();
    let words: Vec<&str> = words.iter().map(String::as_str).collect();
    let written = result_of(&words).and_then(|bytes| {
        let written = io::stdout().lock().write_all(&bytes);
        written.map_err(|error| format!("can't write the result: {error}"))
    });
    match written {
        Ok(()) => ExitCode::SUCCESS,
        Err(message) => {
            eprintln!("trace: {message}");
            ExitCode::FAILURE
        }
    }
}

/// What the command line asks for.
fn result_of(words: &[&str]) -> Result<Vec<u8>, String> {
    match words {
        ["--help" | "-h" | "help"] => Ok(HELP.as_bytes().to_vec()),
        ["asm", file @ ..] => assemble::assemble(&read(file)?),
        ["dis", "--offsets", file @ ..] => disassembled(file, true),
        ["dis", file @ ..] => disassembled(file, false),
        _ => Err(format!("no such command\n{HELP}")),
    }
}

fn disassembled(file: &[&str], offsets: bool) -> Result<Vec<u8>, String> {
    Ok(disassemble::disassemble(&read(file)?, offsets).into_bytes())
}

/// The file named, or standard input if none is.
fn read(file: &[&str]) -> Result<Vec<u8>, String> {
    match file {
        [] => {
            let mut bytes = Vec::new();
            let read = io::stdin().lock().read_to_end(&mut bytes);
            read.map_err(|error| format!("can't read standard input: {error}"))?;
            Ok(bytes)
        }
        [name] if !name.starts_with('-') => std::fs::read(name)
            .map_err(|error| format!("can't read {name}: {error}; check its name")),
        _ => Err(format!("expected at most one file\n{HELP}")),
    }
}
