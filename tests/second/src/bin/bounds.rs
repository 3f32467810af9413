//! Program `bounds`: a table of critical sections and questions about it on standard input, the
//! answers on standard output. The text form stands in `section_text.rs`.
//!
//! Assumes nothing of the input.

use std::io::{self, Read};
use std::process::ExitCode;

fn main() -> ExitCode {
    let mut text = String::new();
    let answers = io::stdin()
        .read_to_string(&mut text)
        .map_err(|error| error.to_string())
        .and_then(|_| second::section_text::answer_questions(&text));
    match answers {
        Ok(answers) => {
            print!("{answers}");
            ExitCode::SUCCESS
        }
        Err(fault) => {
            eprintln!("bounds: {fault}");
            ExitCode::FAILURE
        }
    }
}
