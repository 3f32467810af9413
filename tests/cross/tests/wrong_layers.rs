//! The comparison itself: layers that are wrong in one place are told apart, and the case that is
//! shown is small.
//!
//! Assumes nothing. The wrong layers answer as the second program does but for that place.

mod common;

use common::difference;
use cross::answer::{Answer, EXECUTES, GRANTED, OK, REFUSED, SPINS};
use cross::sides::{Call, Layer, Second};
use second::library::METER_ROW_BYTES;

/// Which function is wrong.
#[derive(Clone, Copy, PartialEq, Eq)]
enum Wrong {
    Layout,
    /// A refused fresh writes.
    Fresh,
    Sound,
    /// A granted lock writes one byte too many.
    Step,
    /// A granted lock's answer has something after its number.
    Further,
    Executing,
    /// The row past the tasks is written too.
    Meter,
    Bound,
    /// A refused bound writes.
    RefusedBound,
    /// The number after `granted` is one too high.
    Replay,
    /// Nothing follows a 62.
    FourthField,
    /// A byte after the text is written.
    PastText,
}

struct WrongLayer(Wrong);

impl Layer for WrongLayer {
    fn layout(&self) -> Answer {
        match self.0 {
            Wrong::Layout => Answer::ok(0),
            _ => Second.layout(),
        }
    }

    fn fresh(&self, table: &[u8], state: &mut [u8]) -> Answer {
        let answer = Second.fresh(table, state);
        if self.0 == Wrong::Fresh && answer == Answer::refused(20) {
            state[0] = 0;
        }
        answer
    }

    fn is_sound(&self, state: &[u8]) -> Answer {
        match self.0 {
            Wrong::Sound => Answer::ok(0),
            _ => Second.is_sound(state),
        }
    }

    fn step(&self, state: &mut [u8], call: Call) -> Answer {
        let mut answer = Second.step(state, call);
        match (self.0, answer.word) {
            (Wrong::Step, GRANTED) => state[1801] ^= 1,
            (Wrong::Further, GRANTED) => answer.follows = Some(0),
            _ => (),
        }
        answer
    }

    fn executing(&self, state: &[u8], server: u16) -> Answer {
        let mut answer = Second.executing(state, server);
        if self.0 == Wrong::Executing && answer.word == SPINS {
            answer.word = EXECUTES;
        }
        answer
    }

    fn meter(&self, state: &[u8], rows: &mut [u8]) -> Answer {
        let answer = Second.meter(state, rows);
        if self.0 == Wrong::Meter && answer.word == OK {
            if let Some(byte) = rows.get_mut(METER_ROW_BYTES * answer.number as usize) {
                *byte = 0;
            }
        }
        answer
    }

    fn bound(&self, sections: &[u8], task: u16, allowance: u32, out: &mut [u8]) -> Answer {
        let answer = Second.bound(sections, task, allowance, out);
        match (self.0, answer.word) {
            (Wrong::Bound, OK) if out[8] > 5 => out[8] = 5,
            (Wrong::RefusedBound, REFUSED) => out[0] = 0,
            _ => (),
        }
        answer
    }

    fn replay(&self, trace: &[u8], out: &mut [u8]) -> Answer {
        let mut answer = Second.replay(trace, out);
        let length = answer.number as usize;
        let text = String::from_utf8_lossy(&out[..length]).into_owned();
        match self.0 {
            Wrong::Replay => {
                let wrong = text.replace("granted 0", "granted 1");
                out[..length].copy_from_slice(wrong.as_bytes());
            }
            Wrong::FourthField => {
                let wrong = text.replace("refused 62 0\n", "refused 62\n");
                out[..wrong.len()].copy_from_slice(wrong.as_bytes());
                answer = Answer::ok(wrong.len() as u32);
            }
            Wrong::PastText => out[length] = 0,
            _ => (),
        }
        answer
    }
}

/// The text of the first difference in a family.
fn told_apart(wrong: Wrong, family: &str) -> String {
    difference(&WrongLayer(wrong), family).expect("it is told apart")
}

#[test]
fn every_function_is_compared() {
    for (wrong, family, difference) in [
        (Wrong::Layout, "layout of the library", "second: ok 1"),
        (Wrong::Fresh, "tables for fresh", "processors: proved"),
        (
            Wrong::Sound,
            "states with one clause broken",
            "proved: ok 0",
        ),
        (Wrong::Step, "made-up sound states", "resource 15 queue[15]"),
        (Wrong::Step, "case R", "resource 15 queue[15]"),
        (Wrong::Further, "case R", "proved: granted 0 0"),
        (Wrong::Executing, "made-up sound states", "second: spins"),
        (
            Wrong::Meter,
            "made-up sound states",
            "row 1: proved [00, a5",
        ),
        (Wrong::Bound, "section tables", "weighings 5"),
        (
            Wrong::RefusedBound,
            "section tables",
            "row 0: proved [00, a5",
        ),
        (Wrong::Replay, "traces", "proved: 3 granted 1"),
        (Wrong::FourthField, "traces", "refused 62\nline"),
        (Wrong::PastText, "damaged traces", "the bytes after them"),
    ] {
        let text = told_apart(wrong, family);
        assert!(text.contains(difference), "{text}");
    }
}

#[test]
fn a_trace_is_shrunk_to_its_records() {
    let text = told_apart(Wrong::Replay, "traces");
    let words = text.lines().map(|line| line.split(' ').next());
    let words: Vec<&str> = words.map(Option::unwrap_or_default).collect();
    let records: Vec<&str> = words.into_iter().filter(|word| *word != "task").collect();
    assert_eq!(
        records[..4],
        ["machine", "wake", "dispatch", "lock"],
        "{text}"
    );
}

#[test]
fn a_state_is_shrunk_to_what_matters() {
    let text = told_apart(Wrong::Executing, "made-up sound states");
    let shown = text.lines().count();
    assert!(shown <= 6, "{text}");
}
