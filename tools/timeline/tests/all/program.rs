//! The program from outside: its arguments, its messages and its exit status.

use super::tree;
use std::io::Write;
use std::process::{Command, Output, Stdio};

fn timeline(words: &[&str], input: &[u8]) -> Output {
    let mut child = Command::new(env!("CARGO_BIN_EXE_timeline"))
        .args(words)
        .current_dir(tree())
        .stdin(Stdio::piped())
        .stdout(Stdio::piped())
        .stderr(Stdio::piped())
        .spawn()
        .unwrap();
    // A program that refuses its arguments reads nothing.
    let _ = child.stdin.take().unwrap().write_all(input);
    child.wait_with_output().unwrap()
}

/// The file that comes without a word of complaint.
fn file(words: &[&str], input: &[u8]) -> String {
    let output = timeline(words, input);
    assert!(
        output.status.success() && output.stderr.is_empty(),
        "{words:?}: {output:?}"
    );
    String::from_utf8(output.stdout).unwrap()
}

fn fails(words: &[&str], status: i32, message: &str) {
    let output = timeline(words, b"");
    let told = String::from_utf8_lossy(&output.stderr).into_owned();
    assert_eq!(output.status.code(), Some(status), "{words:?}");
    assert!(told.starts_with(message), "{words:?}: {told}");
    assert!(output.stdout.is_empty());
}

#[test]
fn a_picture_or_a_page() {
    let trace = "examples/incident.trace";
    let names = ["--names", "examples/incident.names"];
    let svg = file(&[&names[..], &[trace]].concat(), b"");
    assert!(svg.starts_with("<svg ") && svg.contains("dose meter"));
    assert_eq!(svg, file(&["--svg", names[0], names[1], trace], b""));
    assert!(file(&["--html", trace], b"").starts_with("<!DOCTYPE html>"));
    assert!(file(&["--help"], b"").starts_with("usage: timeline"));
}

#[test]
fn the_stored_picture_is_what_is_drawn() {
    let stored = std::fs::read_to_string(tree().join("docs/pictures/incident.svg")).unwrap();
    let names = ["--names", "examples/incident.names"];
    assert!(stored == file(&[names[0], names[1], "examples/incident.trace"], b""));
}

#[test]
fn standard_input_without_a_file() {
    let trace = std::fs::read(tree().join("examples/incident.trace")).unwrap();
    let named = file(&["examples/incident.trace"], b"");
    assert_eq!(
        named.replace("examples/incident.trace", "standard input"),
        file(&[], &trace)
    );
    assert!(file(&[], b"").contains("stop 0 32"));
    assert!(file(&["--html"], &[0; 60_001]).contains("stop 0 33"));
}

#[test]
fn a_window_is_named_by_its_ticks() {
    let svg = file(
        &["--from", "3", "--to", "7", "examples/incident.trace"],
        b"",
    );
    assert!(svg.contains("ticks 3 to 7"));
    assert!(!svg.contains("20 refused"));
    assert!(file(&["--from", "99", "examples/incident.trace"], b"").contains("ticks 99 to 99"));
}

#[test]
fn a_word_that_is_no_text_is_told() {
    use std::os::unix::ffi::OsStringExt;
    let word = std::ffi::OsString::from_vec(vec![b'a', 0xff]);
    let program = env!("CARGO_BIN_EXE_timeline");
    let output = Command::new(program).arg(word).output().unwrap();
    assert_eq!(output.status.code(), Some(2));
    assert!(output
        .stderr
        .starts_with(b"timeline: \"a\\xFF\" is no text"));
}

#[test]
fn what_is_wrong_is_told() {
    fails(&["--png"], 2, "timeline: there is no `--png`\nusage: ");
    fails(
        &["--from", "2", "--to", "1"],
        2,
        "timeline: --from 2 is after --to 1\nusage: ",
    );
    fails(
        &["no-such.trace"],
        1,
        "timeline: can't read no-such.trace: ",
    );
    fails(&["examples"], 1, "timeline: can't read examples: ");
    fails(
        &["--names", "no-such", "examples/incident.trace"],
        1,
        "timeline: can't read no-such: ",
    );
    fails(
        &["--names", "examples/incident.txt"],
        1,
        "timeline: examples/incident.txt: line 5: `machine` has no names",
    );
    fails(&["--names", "examples/incident.trace"], 1, "timeline: ");
}
