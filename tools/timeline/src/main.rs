//! Program `timeline`, for bench technicians: draws a trace, as a picture for documents or as a page
//! to step through. `docs/TIMELINE.md` says how to read it.
//!
//! Assumes nothing of its input. A faulty trace is drawn up to its stop; exit status 1 tells of a
//! file that can't be read or written, or that the program was built with a library of another
//! layout, 2 of a command that can't be understood.

use std::io::{self, Read, Write};
use std::process::ExitCode;
use timeline::arguments::{command, Arguments, Command, Form, HELP};
use timeline::names::Names;
use timeline::page::page;
use timeline::run::Run;
use timeline::svg::svg;

/// One byte above the longest trace, as the library needs no more to refuse it.
const MOST: u64 = 60_001;

fn main() -> ExitCode {
    let done = match words().and_then(|words| command(&words)) {
        Ok(Command::Help) => written(HELP),
        Ok(Command::Draw(asked)) => drawn(&asked).and_then(|file| written(&file)),
        Err(fault) => {
            eprint!("timeline: {fault}\n{HELP}");
            return ExitCode::from(2);
        }
    };
    match done {
        Ok(()) => ExitCode::SUCCESS,
        Err(message) => {
            eprintln!("timeline: {message}");
            ExitCode::FAILURE
        }
    }
}

fn words() -> Result<Vec<String>, String> {
    let text = |word: std::ffi::OsString| {
        let told = |word| format!("{word:?} is no text; rename the file or use standard input");
        word.into_string().map_err(told)
    };
    std::env::args_os().skip(1).map(text).collect()
}

fn drawn(asked: &Arguments) -> Result<String, String> {
    same_layout(vesztamor::layout())?;
    let names = match &asked.names {
        Some(file) => named(file)?,
        None => Names::default(),
    };
    let run = Run::of(&read(asked.file.as_deref())?);
    let view = run.view(asked.from, asked.to);
    let source = asked.file.as_deref().unwrap_or("standard input");
    Ok(match asked.form {
        Form::Svg => svg(&run, view, &names, source),
        Form::Html => page(&run, view, &names, source),
    })
}

/// The library is whatever file was named when this program was built.
fn same_layout(found: u64) -> Result<(), String> {
    let own = vesztamor::LAYOUT;
    if found != own {
        return Err(format!(
            "built with a library of layout {found} instead of {own}; build both anew"
        ));
    }
    Ok(())
}

fn named(file: &str) -> Result<Names, String> {
    let text = std::fs::read_to_string(file).map_err(|error| unreadable(file, error))?;
    Names::of(&text).map_err(|fault| format!("{file}: {fault}"))
}

fn read(file: Option<&str>) -> Result<Vec<u8>, String> {
    let mut bytes = Vec::new();
    let done = match file {
        Some(name) => {
            let opened = std::fs::File::open(name);
            opened.and_then(|file| file.take(MOST).read_to_end(&mut bytes))
        }
        None => io::stdin().lock().take(MOST).read_to_end(&mut bytes),
    };
    done.map_err(|error| unreadable(file.unwrap_or("standard input"), error))?;
    Ok(bytes)
}

fn unreadable(file: &str, error: io::Error) -> String {
    format!("can't read {file}: {error}")
}

fn written(text: &str) -> Result<(), String> {
    let mut out = io::stdout().lock();
    let done = out.write_all(text.as_bytes()).and_then(|()| out.flush());
    done.map_err(|error| format!("can't write the result: {error}"))
}

#[cfg(test)]
mod tests {
    use super::same_layout;

    #[test]
    fn a_library_of_another_layout_is_told() {
        assert_eq!(same_layout(vesztamor::LAYOUT), Ok(()));
        let told = same_layout(vesztamor::LAYOUT + 1).unwrap_err();
        assert!(told.ends_with("; build both anew"), "{told}");
    }
}
