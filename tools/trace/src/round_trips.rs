//! Tests of both directions: bytes to text and back, text to bytes and back, and the messages.
//!
//! Assumes nothing; the random bytes come from fixed seeds.

use crate::assemble::assemble;
use crate::disassemble::disassemble;
use crate::records::{Form, Width, FORMS};

/// A small seeded generator (splitmix64).
struct Random(u64);

impl Random {
    fn below(&mut self, bound: u64) -> u64 {
        self.0 = self.0.wrapping_add(0x9e37_79b9_7f4a_7c15);
        let mut mixed = self.0;
        mixed = (mixed ^ (mixed >> 30)).wrapping_mul(0xbf58_476d_1ce4_e5b9);
        mixed = (mixed ^ (mixed >> 27)).wrapping_mul(0x94d0_49bb_1331_11eb);
        (mixed ^ (mixed >> 31)) % bound
    }

    fn bytes(&mut self, most: u64, largest: u64) -> Vec<u8> {
        let count = self.below(most + 1);
        (0..count).map(|_| self.below(largest + 1) as u8).collect()
    }

    /// A line as `dis` writes it.
    fn line(&mut self) -> String {
        let form: &Form = &FORMS[self.below(FORMS.len() as u64) as usize];
        let mut line = form.word.to_string();
        for field in form.fields {
            let largest = if self.below(3) == 0 { 20 } else { 65_536 };
            line += &match field.width {
                Width::TwoBytes => format!(" {}", self.below(largest)),
                Width::FourBytes => format!(" {}", self.below(largest * largest)),
                Width::Set => format!(" 0x{:04x}", self.below(65_536)),
            };
        }
        line + "\n"
    }

    fn text(&mut self) -> String {
        let lines = self.below(30);
        (0..lines).map(|_| self.line()).collect()
    }
}

fn assembled(text: &str) -> Vec<u8> {
    assemble(text.as_bytes()).unwrap_or_else(|fault| panic!("{fault} in\n{text}"))
}

fn fault_in(text: &str) -> String {
    assemble(text.as_bytes()).expect_err("a fault")
}

fn assert_bytes_return(bytes: &[u8]) {
    let text = disassemble(bytes, false);
    assert_eq!(assembled(&text), bytes, "{text}");
    let with_offsets = disassemble(bytes, true);
    assert_eq!(assembled(&with_offsets), bytes, "{with_offsets}");
    assert_eq!(disassemble(&assembled(&with_offsets), false), text);
}

#[test]
fn random_bytes_return() {
    let mut random = Random(1);
    for _ in 0..4_000 {
        let largest = [3, 20, 255][random.below(3) as usize];
        assert_bytes_return(&random.bytes(120, largest));
    }
}

#[test]
fn all_short_files_return() {
    assert_bytes_return(&[]);
    for first in 0..=255 {
        assert_bytes_return(&[first]);
        for second in 0..=255 {
            assert_bytes_return(&[first, second]);
        }
    }
}

#[test]
fn damaged_traces_return() {
    let mut random = Random(2);
    for _ in 0..2_000 {
        let mut bytes = assembled(&random.text());
        for _ in 0..random.below(4) {
            if !bytes.is_empty() {
                let place = random.below(bytes.len() as u64) as usize;
                bytes[place] = random.below(20) as u8;
            }
        }
        bytes.truncate(random.below(bytes.len() as u64 + 1) as usize);
        assert_bytes_return(&bytes);
    }
}

#[test]
fn large_records_return() {
    let mut bytes = vec![0xff, 0xff];
    bytes.resize(2 + 65_535, 7);
    assert_bytes_return(&bytes);
    bytes.extend([9, 9, 9]);
    assert_bytes_return(&bytes);
}

#[test]
fn text_returns() {
    let mut random = Random(3);
    for _ in 0..2_000 {
        let text = random.text();
        assert_eq!(disassemble(&assembled(&text), false), text);
    }
}

#[test]
fn text_of_case_r_returns() {
    let text = include_str!("../examples/case-r.txt");
    let plain: String = text
        .lines()
        .map(|line| line.split('#').next().unwrap_or_default().trim())
        .filter(|line| !line.is_empty())
        .map(|line| format!("{line}\n"))
        .collect();
    let bytes = assembled(text);
    assert_eq!(disassemble(&bytes, false), plain);
    for cut in 0..bytes.len() {
        assert_bytes_return(&bytes[..cut]);
    }
}

#[test]
fn bytes_of_each_form() {
    assert_eq!(assembled("machine 2 3 1"), [8, 0, 16, 0, 2, 0, 3, 0, 1, 0]);
    let task = [12, 0, 17, 0, 10, 0, 0, 0, 20, 0, 0, 0, 5, 0];
    for set in ["0x0005", "0x5", "0,2", "2 0", "0, 2"] {
        assert_eq!(assembled(&format!("task 10 20 {set}")), task);
    }
    assert_eq!(assembled("task 0 0 none")[12..], [0, 0]);
    let two_bytes = [
        ("wake", 1),
        ("suspend", 2),
        ("dispatch", 3),
        ("preempt", 4),
        ("recharge", 6),
    ];
    for (word, kind) in two_bytes {
        assert_eq!(assembled(&format!("{word} 258")), [4, 0, kind, 0, 2, 1]);
    }
    assert_eq!(assembled("elapse 0x01020304"), [6, 0, 5, 0, 4, 3, 2, 1]);
    assert_eq!(assembled("lock 2 0"), [6, 0, 7, 0, 2, 0, 0, 0]);
    assert_eq!(assembled("unlock 2 65535"), [6, 0, 8, 0, 2, 0, 255, 255]);
    assert_eq!(assembled("record 18 01 00"), [4, 0, 18, 0, 1, 0]);
    assert_eq!(assembled("record 0x12"), [2, 0, 18, 0]);
    assert_eq!(assembled("raw 07 0001"), [7, 0, 1]);
    assert_eq!(assembled("# nothing\r\n\r\n  \t# here\n"), []);
}

#[test]
fn unreadable_parts_as_text() {
    let wrong_length = [5, 0, 1, 0, 2, 0, 0];
    assert_eq!(disassemble(&wrong_length, false), "record 1 02 00 00\n");
    assert_eq!(disassemble(&[2, 0, 99, 0], false), "record 99\n");
    assert_eq!(disassemble(&[1, 0, 99, 0], false), "raw 01 00 63 00\n");
    let cut = [4, 0, 1, 0, 2, 0, 4, 0, 1];
    let expected = "wake 2                           # at 0\n\
                    raw 04 00 01                     # at 6\n";
    assert_eq!(disassemble(&cut, true), expected);
}

/// Texts, and how the message about each begins.
const MESSAGES: [(&str, &str); 11] = [
    (
        "wake 1\nwkae 2",
        "line 2: `wkae` is no record; write one of machine, task, wake",
    ),
    (
        "lock 2",
        "line 1: RESOURCE is missing; write `lock TASK RESOURCE`",
    ),
    ("wake 2 3", "line 1: `3` is too much; write `wake TASK`"),
    (
        "wake 65536",
        "line 1: TASK is `65536`; write a number from 0 to 65535",
    ),
    (
        "elapse -1",
        "line 1: TICKS is `-1`; write a number from 0 to 4294967295",
    ),
    ("task 1 2", "line 1: SET is missing; write `task Q P SET`"),
    (
        "task 1 2 16",
        "line 1: a resource of SET is `16`; write a number from 0 to 15",
    ),
    (
        "\n\nraw 0",
        "line 3: `0` are no bytes; write two hexadecimal digits",
    ),
    ("raw", "line 1: `raw` without bytes; write `raw HEX..`"),
    (
        "record",
        "line 1: `record` without a kind; write `record KIND HEX..`",
    ),
    (
        "record 70000",
        "line 1: KIND is `70000`; write a number from 0 to 65535",
    ),
];

#[test]
fn messages_name_the_line_and_what_to_do() {
    for (text, expected) in MESSAGES {
        let message = fault_in(text);
        assert!(message.starts_with(expected), "{message}");
    }
    let not_text = assemble(&[b'#', b'\n', 0xff]).expect_err("a fault");
    assert!(not_text.starts_with("line 2: not text"), "{not_text}");
    let too_large = format!("record 1 {}", "00".repeat(65_534));
    assert!(fault_in(&too_large).ends_with("a record holds at most 65533"));
}
