//! The program as it is run: its commands, files and messages.
//!
//! Assumes that cargo built it beside these tests.

use std::io::Write;
use std::process::{Command, Output, Stdio};

fn trace(words: &[&str], input: &[u8]) -> Output {
    let mut child = Command::new(env!("CARGO_BIN_EXE_trace"))
        .args(words)
        .stdin(Stdio::piped())
        .stdout(Stdio::piped())
        .stderr(Stdio::piped())
        .spawn()
        .expect("the program starts");
    let mut stdin = child.stdin.take().expect("its input is ours");
    // The program may end without reading its input.
    let _ = stdin.write_all(input);
    drop(stdin);
    child.wait_with_output().expect("the program ends")
}

fn text(bytes: &[u8]) -> String {
    String::from_utf8_lossy(bytes).to_string()
}

#[test]
fn there_and_back() {
    let assembled = trace(&["asm"], b"machine 1 1 0\ntask 4 8 none # idle\nwake 0\n");
    assert!(assembled.status.success());
    let text_again = trace(&["dis"], &assembled.stdout).stdout;
    assert_eq!(
        text(&text_again),
        "machine 1 1 0\ntask 4 8 0x0000\nwake 0\n"
    );
    let with_offsets = trace(&["dis", "--offsets"], &assembled.stdout).stdout;
    assert!(text(&with_offsets).contains("# at 24\n"));
}

#[test]
fn file_by_name() {
    let example = concat!(env!("CARGO_MANIFEST_DIR"), "/examples/case-r.txt");
    let by_name = trace(&["asm", example], &[]).stdout;
    let by_input = trace(&["asm"], include_bytes!("../examples/case-r.txt")).stdout;
    assert_eq!(by_name, by_input);
    let missing = trace(&["asm", "no-such-file"], &[]);
    assert!(!missing.status.success());
    assert!(text(&missing.stderr).contains("can't read no-such-file"));
}

#[test]
fn help_and_faults() {
    let help = trace(&["--help"], &[]);
    assert!(help.status.success());
    assert!(text(&help.stdout).starts_with("usage: trace asm"));
    for words in [
        &["draw"][..],
        &[][..],
        &["asm", "one", "two"][..],
        &["dis", "--all"][..],
    ] {
        let output = trace(words, &[]);
        assert!(!output.status.success());
        assert!(text(&output.stderr).contains("usage: trace asm"));
    }
    let fault = trace(&["asm"], b"wake\n");
    assert!(!fault.status.success());
    assert!(fault.stdout.is_empty());
    assert_eq!(
        text(&fault.stderr),
        "trace: line 1: TASK is missing; write `wake TASK`\n"
    );
}
