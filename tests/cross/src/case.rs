//! One question that both sides are asked, what each is seen to answer, and whether they differ.
//!
//! Assumes nothing. A side that panics is seen to have done so, which is an answer like others.

use crate::answer::Answer;
use crate::sides::{Call, Layer};
use second::library::{text_bytes, BOUND_BYTES};
use std::cell::Cell;
use std::panic::{self, AssertUnwindSafe};
use std::sync::Once;

/// What stands in lent memory before a call, so that bytes which a side leaves alone are seen.
const UNTOUCHED: u8 = 0xa5;

#[derive(Clone, Debug, PartialEq, Eq)]
pub enum Case {
    Layout,
    /// A whole trace, with so many bytes of room less than a listing is given.
    Replay {
        trace: Vec<u8>,
        missing: usize,
    },
    /// A table, and so many bytes for the state.
    Fresh {
        table: Vec<u8>,
        room: usize,
    },
    Sound {
        state: Vec<u8>,
    },
    Step {
        state: Vec<u8>,
        call: Call,
    },
    Executing {
        state: Vec<u8>,
        server: u16,
    },
    /// A state, and so many bytes for its meter rows.
    Meter {
        state: Vec<u8>,
        room: usize,
    },
    Bound {
        sections: Vec<u8>,
        task: u16,
        allowance: u32,
    },
}

/// The answer of a side.
#[derive(Clone, Copy, Debug, PartialEq, Eq)]
pub enum Told {
    Answer(Answer),
    Panicked,
}

/// The answer of a side, and the lent bytes as it left them.
#[derive(Clone, Debug, PartialEq, Eq)]
pub struct Seen {
    pub told: Told,
    pub left: Vec<u8>,
}

/// The two sides, side by side.
pub struct Sides<'a> {
    pub proved: &'a dyn Layer,
    pub second: &'a dyn Layer,
}

impl Sides<'_> {
    /// What each side does, the proved one first.
    pub fn seen(&self, case: &Case) -> [Seen; 2] {
        [self.proved, self.second].map(|side| case.seen_by(side))
    }

    pub fn differ(&self, case: &Case) -> bool {
        let [proved, second] = self.seen(case);
        proved != second
    }
}

impl Case {
    fn seen_by(&self, side: &dyn Layer) -> Seen {
        let mut left = match self {
            Case::Replay { trace, missing } => vec![UNTOUCHED; text_bytes(trace.len()) - missing],
            Case::Fresh { room, .. } | Case::Meter { room, .. } => vec![UNTOUCHED; *room],
            Case::Step { state, .. } => state.clone(),
            Case::Bound { .. } => vec![UNTOUCHED; BOUND_BYTES],
            Case::Layout | Case::Sound { .. } | Case::Executing { .. } => Vec::new(),
        };
        let answer = quietly(|| self.ask(side, &mut left));
        let told = answer.map_or(Told::Panicked, Told::Answer);
        Seen { told, left }
    }

    fn ask(&self, side: &dyn Layer, left: &mut [u8]) -> Answer {
        match self {
            Case::Layout => side.layout(),
            Case::Replay { trace, .. } => side.replay(trace, left),
            Case::Fresh { table, .. } => side.fresh(table, left),
            Case::Sound { state } => side.is_sound(state),
            Case::Step { call, .. } => side.step(left, *call),
            Case::Executing { state, server } => side.executing(state, *server),
            Case::Meter { state, .. } => side.meter(state, left),
            Case::Bound {
                sections,
                task,
                allowance,
            } => side.bound(sections, *task, *allowance, left),
        }
    }
}

thread_local! {
    /// Whether a panic on this thread is awaited, and is told as an answer.
    static AWAITED: Cell<bool> = const { Cell::new(false) };
}

/// The result, or none if it panicked; a panic here is told as a difference, not by its message.
fn quietly<T>(run: impl FnOnce() -> T) -> Option<T> {
    static HOOK: Once = Once::new();
    HOOK.call_once(|| {
        let usual = panic::take_hook();
        panic::set_hook(Box::new(move |told| {
            if !AWAITED.get() {
                usual(told);
            }
        }));
    });
    AWAITED.set(true);
    let result = panic::catch_unwind(AssertUnwindSafe(run));
    AWAITED.set(false);
    result.ok()
}
