//! The stored traces: each listing is this program's, and every number that a replay can tell has a
//! trace that tells it.
//!
//! Assumes the text form of traces as `tools/trace/FORMAT.md` gives it. It is read here a second
//! time, so that a trace stored as bytes is compared with its text too.

use super::bench::{counts, record, row};
use super::refusal_table::rows;
use second::generate::long::{longest, past_the_clock, too_long};
use second::replay::replay;
use std::fs;
use std::path::{Path, PathBuf};

/// The events' words, by kind from 1.
const EVENTS: [&str; 8] = [
    "wake", "suspend", "dispatch", "preempt", "elapse", "recharge", "lock", "unlock",
];

fn root() -> PathBuf {
    Path::new(env!("CARGO_MANIFEST_DIR")).join("../..")
}

fn texts_in(folder: &str) -> Vec<PathBuf> {
    let entries = fs::read_dir(root().join(folder)).expect("the folder is there");
    let paths = entries.map(|entry| entry.expect("it can be listed").path());
    paths
        .filter(|path| path.extension().is_some_and(|end| end == "txt"))
        .collect()
}

fn read_text(path: &Path) -> String {
    fs::read_to_string(path).unwrap_or_else(|error| panic!("{}: {error}", path.display()))
}

fn trace_at(path: &Path) -> Vec<u8> {
    read_text(path).lines().flat_map(line_bytes).collect()
}

fn line_bytes(line: &str) -> Vec<u8> {
    let line = line.split('#').next().unwrap_or_default();
    let words: Vec<&str> = line.split_whitespace().collect();
    let Some((&word, rest)) = words.split_first() else {
        return Vec::new();
    };
    match (word, rest) {
        ("machine", [processors, tasks, resources]) => counts(
            number(processors) as u16,
            number(tasks) as u16,
            number(resources) as u16,
        ),
        ("task", [quota, period, set]) => row(number(quota), number(period), declared(set)),
        ("record", [kind, body @ ..]) => record(number(kind) as u16, &hexadecimal(body)),
        ("raw", bytes) => hexadecimal(bytes),
        (event, operands) => event_bytes(event, operands),
    }
}

fn event_bytes(event: &str, operands: &[&str]) -> Vec<u8> {
    let place = EVENTS.iter().position(|&word| word == event);
    let kind = place.unwrap_or_else(|| panic!("`{event}` is no event")) as u16 + 1;
    let numbers = operands.iter().map(|operand| number(operand));
    let body: Vec<u8> = if event == "elapse" {
        numbers.flat_map(u32::to_le_bytes).collect()
    } else {
        numbers.flat_map(|n| (n as u16).to_le_bytes()).collect()
    };
    record(kind, &body)
}

fn number(word: &str) -> u32 {
    let read = match word.strip_prefix("0x") {
        Some(digits) => u32::from_str_radix(digits, 16),
        None => word.parse(),
    };
    read.unwrap_or_else(|_| panic!("`{word}` is no number"))
}

fn declared(set: &str) -> u16 {
    if set.starts_with("0x") {
        return number(set) as u16;
    }
    let listed = set.split(',').filter(|&word| word != "none");
    listed.map(|resource| 1 << number(resource)).sum()
}

fn hexadecimal(words: &[&str]) -> Vec<u8> {
    let digits = words.concat();
    let bytes = (0..digits.len()).step_by(2);
    bytes
        .map(|at| u8::from_str_radix(&digits[at..at + 2], 16).expect("two digits"))
        .collect()
}

#[test]
fn stored_listings_are_this_programs() {
    let texts = [texts_in("examples"), texts_in("examples/refusals")].concat();
    for text in &texts {
        let trace = trace_at(text);
        if let Ok(stored) = fs::read(text.with_extension("trace")) {
            assert_eq!(stored, trace, "{}", text.display());
        }
        let listing = String::from_utf8(replay(&trace)).expect("a listing is text");
        let stored = read_text(&text.with_extension("listing"));
        assert_eq!(stored, listing, "{}", text.display());
    }
    assert!(texts.len() >= 25);
}

#[test]
fn the_proved_program_is_run_on_case_r() {
    let trace = trace_at(&root().join("tools/trace/examples/case-r.txt"));
    let input = fs::read(root().join("crates/replay/stdin")).expect("its input is stored");
    assert_eq!(input, trace);
    let output = fs::read(root().join("crates/replay/stdout")).expect("its output is stored");
    assert_eq!(output, include_bytes!("case_r.listing"));
}

/// The numbers that a listing tells, as refusals and as stops.
fn told(listing: &str) -> Vec<u16> {
    let words = listing.lines().map(|line| line.split(' ').collect());
    let numbers = words.filter_map(|words: Vec<&str>| match words[..] {
        [_, "refused", number] | [_, "refused", number, _] | ["stop", _, number] => {
            number.parse().ok()
        }
        _ => None,
    });
    numbers.collect()
}

#[test]
fn every_number_of_a_replay_has_a_trace() {
    for (number, name) in rows() {
        // A replay never meets an unsound state (1), and lends no meter rows (22).
        if !matches!(number, 2..=21 | 30..=33 | 61..=63) {
            continue;
        }
        let listing = match number {
            11 => String::from_utf8(replay(&past_the_clock())).expect("a listing is text"),
            33 => String::from_utf8(replay(&too_long())).expect("a listing is text"),
            _ => read_text(&root().join(format!("examples/refusals/{number:02}-{name}.listing"))),
        };
        assert!(told(&listing).contains(&number), "{number} is not told");
    }
}

#[test]
fn the_longest_trace_is_deep_and_accepted() {
    let listing = String::from_utf8(replay(&longest())).expect("a listing is text");
    assert!(listing.contains(" waits 15\n") && listing.contains(" passed 0\n"));
    assert!(told(&listing).len() < 4);
}

/// The section of `docs/TRACE.md` that works case R through.
fn page_on_case_r() -> &'static str {
    let page = include_str!("../../../../docs/TRACE.md");
    let (_, section) = page.split_once("## Case R").expect("the page has case R");
    section.split("\n## ").next().unwrap_or_default()
}

#[test]
fn the_technicians_page_works_case_r_through() {
    let section = page_on_case_r();
    let rows = section.lines().filter(|line| line.starts_with("| "));
    let (mut trace, mut listing) = (Vec::new(), String::new());
    for row in rows.skip(1) {
        let cells: Vec<&str> = row
            .split('|')
            .map(|cell| cell.trim_matches([' ', '`']))
            .collect();
        assert_eq!(number(cells[1]) as usize, trace.len(), "{row}");
        assert_eq!(
            hexadecimal(&[&cells[2].replace(' ', "")]),
            line_bytes(cells[3]),
            "{row}"
        );
        trace.extend(line_bytes(cells[3]));
        listing += cells[4];
        listing += if cells[4].is_empty() { "" } else { "\n" };
    }
    for line in section.lines().filter_map(|line| line.strip_prefix("    ")) {
        listing += line.split("  ").next().unwrap_or_default();
        listing += "\n";
    }
    assert_eq!(
        trace,
        fs::read(root().join("crates/replay/stdin")).expect("it is stored")
    );
    assert_eq!(listing.as_bytes(), include_bytes!("case_r.listing"));
}
