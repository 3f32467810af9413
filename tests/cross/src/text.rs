//! A case in words, and how the two sides differ on it. Traces and tables are written as program
//! `trace` reads them, sections as program `bounds` of the second program does.
//!
//! Assumes nothing.

use crate::answer::{Answer, OK};
use crate::case::{Case, Seen, Told};
use crate::layout::fields;
use crate::sides::Call;
use second::generate::runs::framed;
use second::image::{decode, encode, STATE_BYTES};
use second::library::{BOUND_BYTES, METER_ROW_BYTES};
use second::state::{Resource, Server, Task};
use second::states::{counts_text, resource_text, server_text, task_text};
use std::fmt::Write;
use trace::disassemble::disassemble;

const NO_PARENT: u8 = 255;

pub fn case_text(case: &Case) -> String {
    match case {
        Case::Layout => "which layout is it?\n".to_string(),
        Case::Replay { trace, missing: 0 } => disassemble(trace, true),
        Case::Replay { trace, missing } => {
            let text = disassemble(trace, true);
            format!("{text}# and {missing} bytes of room too few\n")
        }
        Case::Fresh { table, room } => table_text(table, *room),
        Case::Sound { state } => format!("{}is it sound?\n", state_text(state)),
        Case::Step { state, call } => format!("{}{}\n", state_text(state), call_text(*call)),
        Case::Executing { state, server } => {
            format!("{}what does server {server} do?\n", state_text(state))
        }
        Case::Meter { state, room } => {
            format!("{}meter rows into {room} bytes\n", state_text(state))
        }
        Case::Bound {
            sections,
            task,
            allowance,
        } => format!("{}bound {task} {allowance}\n", sections_text(sections)),
    }
}

/// What each side answered, and what it left otherwise than the other.
pub fn difference_text(case: &Case, seen: &[Seen; 2]) -> String {
    let [proved, second] = seen;
    let mut text = format!(
        "proved: {}\nsecond: {}\n",
        told_text(case, proved),
        told_text(case, second)
    );
    match case {
        Case::Replay { .. } => text.push_str(&first_line_apart(seen)),
        Case::Fresh { .. } | Case::Step { .. } => text.push_str(&fields_apart(seen)),
        Case::Meter { .. } => text.push_str(&rows_apart(seen, METER_ROW_BYTES)),
        Case::Bound { .. } => text.push_str(&rows_apart(seen, BOUND_BYTES)),
        Case::Layout | Case::Sound { .. } | Case::Executing { .. } => (),
    }
    text
}

/// The answer, and a bound in words.
fn told_text(case: &Case, seen: &Seen) -> String {
    match (case, seen.told) {
        (_, Told::Panicked) => "a panic".to_string(),
        (Case::Bound { .. }, Told::Answer(answer @ Answer { word: OK, .. })) => {
            format!("{answer}, {}", bound_text(&seen.left))
        }
        (_, Told::Answer(answer)) => answer.to_string(),
    }
}

fn bound_text(bytes: &[u8]) -> String {
    let (ticks, weighings) = bytes.split_at(8);
    let number = |bytes: &[u8]| {
        let highest_first = bytes.iter().rev();
        highest_first.fold(0u64, |value, &byte| value << 8 | u64::from(byte))
    };
    format!("bound {} weighings {}", number(ticks), number(weighings))
}

fn listing(seen: &Seen) -> String {
    let length = match seen.told {
        Told::Answer(Answer {
            word: OK, number, ..
        }) => seen.left.len().min(number as usize),
        _ => 0,
    };
    String::from_utf8_lossy(&seen.left[..length]).into_owned()
}

fn first_line_apart(seen: &[Seen; 2]) -> String {
    let [proved, second] = seen.each_ref().map(listing);
    let lines = proved.lines().count().max(second.lines().count());
    for number in 0..lines {
        let [one, other] = [&proved, &second].map(|listing| listing.lines().nth(number));
        if one != other {
            let line = |line: Option<&str>| line.unwrap_or("(no such line)").to_string();
            let number = number + 1;
            return format!(
                "line {number}, proved: {}\nline {number}, second: {}\n",
                line(one),
                line(other)
            );
        }
    }
    "the listings agree; the bytes after them don't\n".to_string()
}

fn fields_apart(seen: &[Seen; 2]) -> String {
    let [proved, second] = seen.each_ref().map(|seen| &seen.left);
    let mut text = String::new();
    if proved.len() != STATE_BYTES || second.len() != STATE_BYTES {
        return text;
    }
    for field in fields() {
        let (one, other) = (field.value(proved), field.value(second));
        if one != other {
            let _ = writeln!(text, "{}: proved {one}, second {other}", field.name);
        }
    }
    text
}

/// The rows of so many bytes that differ, byte by byte; a bound is one row.
fn rows_apart(seen: &[Seen; 2], size: usize) -> String {
    let [proved, second] = seen.each_ref().map(|seen| seen.left.chunks(size));
    let mut text = String::new();
    for (number, (one, other)) in proved.zip(second).enumerate() {
        if one != other {
            let _ = writeln!(text, "row {number}: proved {one:02x?}, second {other:02x?}");
        }
    }
    text
}

/// An event as in a trace's text.
fn call_text(call: Call) -> String {
    let Call {
        kind,
        number,
        resource,
        ticks,
    } = call;
    let body: Vec<u8> = match kind {
        5 => ticks.to_le_bytes().to_vec(),
        7 | 8 => [number.to_le_bytes(), resource.to_le_bytes()].concat(),
        _ => number.to_le_bytes().to_vec(),
    };
    disassemble(&framed(kind, &body), false)
        .trim_end()
        .to_string()
}

fn table_text(table: &[u8], room: usize) -> String {
    let mut text = String::new();
    let (counts, rows) = table.split_at(table.len().min(6));
    text.push_str(&disassemble(&framed(16, counts), false));
    for row in rows.chunks(10) {
        text.push_str(&disassemble(&framed(17, row), false));
    }
    if room != STATE_BYTES {
        let _ = writeln!(text, "# into {room} bytes");
    }
    text
}

fn sections_text(bytes: &[u8]) -> String {
    let (counts, rows) = bytes.split_at(bytes.len().min(4));
    let two = |bytes: &[u8], at: usize| u16::from_le_bytes([bytes[at], bytes[at + 1]]);
    let mut text = match counts.len() {
        4 => format!("tasks {}\n", two(counts, 0)),
        _ => String::new(),
    };
    for row in rows.chunks(9) {
        if row.len() < 9 || counts.len() < 4 {
            let _ = writeln!(text, "# and bytes {row:02x?}");
            continue;
        }
        let length = u32::from_le_bytes([row[4], row[5], row[6], row[7]]);
        let parent = match row[8] {
            NO_PARENT => "-".to_string(),
            parent => parent.to_string(),
        };
        let (task, resource) = (two(row, 0), two(row, 2));
        let _ = writeln!(text, "section {task} {resource} {length} {parent}");
    }
    text
}

/// The counts, the clock and all entries that aren't empty, and what stands past the counts.
fn state_text(bytes: &[u8]) -> String {
    let Some(state) = decode(bytes) else {
        return no_state_text(bytes);
    };
    let mut text = counts_text(&state);
    for (number, server) in state.server.iter().enumerate() {
        if *server != Server::default() {
            let _ = writeln!(text, "server {number} {}", server_text(server));
        }
    }
    for (number, task) in state.task.iter().enumerate() {
        if *task != Task::default() {
            let _ = writeln!(text, "task {number} {}", task_text(task));
        }
    }
    for (number, resource) in state.resource.iter().enumerate() {
        if *resource != Resource::default() {
            let _ = writeln!(text, "resource {number} {}", resource_text(resource));
        }
    }
    let in_use = encode(&state);
    for field in fields() {
        let value = field.value(bytes);
        if value != field.value(&in_use) {
            let _ = writeln!(text, "past the counts: {} {value}", field.name);
        }
    }
    text
}

fn no_state_text(bytes: &[u8]) -> String {
    if bytes.len() != STATE_BYTES {
        return format!("{} bytes\n", bytes.len());
    }
    let mut text = "no state; its fields but those that are 0:\n".to_string();
    for field in fields().iter().filter(|field| field.value(bytes) != 0) {
        let _ = writeln!(text, "{} {}", field.name, field.value(bytes));
    }
    text
}
