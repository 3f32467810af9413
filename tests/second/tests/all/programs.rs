//! The programs as they are run: standard input in, standard output out.
//!
//! Assumes that cargo built them beside these tests.

use super::case_r::case_r;
use second::trace::FILE_LIMIT;
use std::io::Write;
use std::process::{Command, Output, Stdio};

const REPLAY: &str = env!("CARGO_BIN_EXE_replay");
const BOUNDS: &str = env!("CARGO_BIN_EXE_bounds");
const GENERATE: &str = env!("CARGO_BIN_EXE_generate");

fn run(program: &str, words: &[&str], input: &[u8]) -> Output {
    let mut child = Command::new(program)
        .args(words)
        .stdin(Stdio::piped())
        .stdout(Stdio::piped())
        .stderr(Stdio::piped())
        .spawn()
        .expect("the program starts");
    let mut stdin = child.stdin.take().expect("its input is ours");
    // A program that has read enough may close its input early.
    let _ = stdin.write_all(input);
    drop(stdin);
    child.wait_with_output().expect("the program ends")
}

#[test]
fn replay_case_r() {
    let output = run(REPLAY, &[], &case_r().trace());
    assert!(output.status.success());
    let expected: &[u8] = include_bytes!("case_r.listing");
    assert_eq!(output.stdout, expected);
}

#[test]
fn replay_does_not_read_on_past_the_limit() {
    let output = run(REPLAY, &[], &vec![0; 20 * FILE_LIMIT]);
    assert_eq!(output.stdout, b"stop 0 33\n");
}

#[test]
fn bounds_from_text() {
    let text = "tasks 3\nsection 0 1 5 -\nsection 1 0 9 -\nsection 1 1 4 1\n\
                section 2 0 8 - # two inside it\nsection 2 1 3 3\n\
                bound 0 1000\nbound 1 1000\nbound 2 1000\nbound 0 3\n";
    let output = run(BOUNDS, &[], text.as_bytes());
    let expected = "task 0 bound 4 weighings 4\ntask 1 bound 18 weighings 6\n\
                    task 2 bound 19 weighings 6\ntask 0 refused 46\n";
    assert_eq!(String::from_utf8_lossy(&output.stdout), expected);
}

#[test]
fn bounds_names_the_line_at_fault() {
    let output = run(BOUNDS, &[], b"tasks 3\nsection 0 one 5 -\n");
    assert!(!output.status.success());
    let message = String::from_utf8_lossy(&output.stderr).to_string();
    assert!(message.contains("line 2: `one` is no number"), "{message}");
}

#[test]
fn generated_traces_replay() {
    let good = run(GENERATE, &["trace", "7", "40"], &[]);
    let listing = run(REPLAY, &[], &good.stdout).stdout;
    assert!(String::from_utf8_lossy(&listing).contains("\nend "));
    let damaged = run(GENERATE, &["damaged", "7", "40"], &[]);
    assert_ne!(damaged.stdout, good.stdout);
}
