//! The two sides of the comparison, as one trait: the proved layer through the static library, and
//! the second program on the same bytes.
//!
//! Assumes nothing.

use crate::answer::Answer;
use second::library;
use second::step::Event;
// As they are declared for C: the wrapper's own answers might drop bits.
use vesztamor::library as declared;

/// An event as the library takes it; a kind may be any number.
#[derive(Clone, Copy, Debug, Default, PartialEq, Eq)]
pub struct Call {
    pub kind: u16,
    pub number: u16,
    pub resource: u16,
    pub ticks: u32,
}

impl From<Event> for Call {
    fn from(event: Event) -> Call {
        let (kind, number, resource, ticks) = match event {
            Event::Wake(task) => (1, task.0, 0, 0),
            Event::Suspend(task) => (2, task.0, 0, 0),
            Event::Dispatch(server) => (3, server.0, 0, 0),
            Event::Preempt(server) => (4, server.0, 0, 0),
            Event::Elapse(ticks) => (5, 0, 0, ticks),
            Event::Recharge(server) => (6, server.0, 0, 0),
            Event::Lock(task, resource) => (7, task.0, resource.0, 0),
            Event::Unlock(task, resource) => (8, task.0, resource.0, 0),
        };
        Call {
            kind,
            number,
            resource,
            ticks,
        }
    }
}

/// The functions of the static library.
pub trait Layer {
    fn layout(&self) -> Answer;
    fn fresh(&self, table: &[u8], state: &mut [u8]) -> Answer;
    fn is_sound(&self, state: &[u8]) -> Answer;
    fn step(&self, state: &mut [u8], call: Call) -> Answer;
    fn executing(&self, state: &[u8], server: u16) -> Answer;
    fn meter(&self, state: &[u8], rows: &mut [u8]) -> Answer;
    fn bound(&self, sections: &[u8], task: u16, allowance: u32, out: &mut [u8]) -> Answer;
    fn replay(&self, trace: &[u8], out: &mut [u8]) -> Answer;
}

/// The proved layer.
pub struct Proved;

/// Each call lends memory that is there, and no part of it twice, which is all that the library asks.
impl Layer for Proved {
    fn layout(&self) -> Answer {
        Answer::of(unsafe { declared::vesztamor_layout() })
    }

    fn fresh(&self, table: &[u8], state: &mut [u8]) -> Answer {
        let (lent, length) = (state.as_mut_ptr(), state.len());
        Answer::of(unsafe { declared::vesztamor_fresh(table.as_ptr(), table.len(), lent, length) })
    }

    fn is_sound(&self, state: &[u8]) -> Answer {
        Answer::of(unsafe { declared::vesztamor_is_sound(state.as_ptr(), state.len()) })
    }

    fn step(&self, state: &mut [u8], call: Call) -> Answer {
        let Call {
            kind,
            number,
            resource,
            ticks,
        } = call;
        let (lent, length) = (state.as_mut_ptr(), state.len());
        Answer::of(unsafe { declared::vesztamor_step(lent, length, kind, number, resource, ticks) })
    }

    fn executing(&self, state: &[u8], server: u16) -> Answer {
        Answer::of(unsafe { declared::vesztamor_executing(state.as_ptr(), state.len(), server) })
    }

    fn meter(&self, state: &[u8], rows: &mut [u8]) -> Answer {
        let (lent, length) = (rows.as_mut_ptr(), rows.len());
        Answer::of(unsafe { declared::vesztamor_meter(state.as_ptr(), state.len(), lent, length) })
    }

    fn bound(&self, sections: &[u8], task: u16, allowance: u32, out: &mut [u8]) -> Answer {
        let (bytes, size) = (sections.as_ptr(), sections.len());
        let (lent, length) = (out.as_mut_ptr(), out.len());
        Answer::of(unsafe { declared::vesztamor_bound(bytes, size, task, allowance, lent, length) })
    }

    fn replay(&self, trace: &[u8], out: &mut [u8]) -> Answer {
        let (lent, length) = (out.as_mut_ptr(), out.len());
        Answer::of(unsafe { declared::vesztamor_replay(trace.as_ptr(), trace.len(), lent, length) })
    }
}

/// The second program.
pub struct Second;

impl Layer for Second {
    fn layout(&self) -> Answer {
        Answer::of(library::layout())
    }

    fn fresh(&self, table: &[u8], state: &mut [u8]) -> Answer {
        Answer::of(library::fresh(table, state))
    }

    fn is_sound(&self, state: &[u8]) -> Answer {
        Answer::of(library::is_sound(state))
    }

    fn step(&self, state: &mut [u8], call: Call) -> Answer {
        let Call {
            kind,
            number,
            resource,
            ticks,
        } = call;
        Answer::of(library::step(state, kind, number, resource, ticks))
    }

    fn executing(&self, state: &[u8], server: u16) -> Answer {
        Answer::of(library::executing(state, server))
    }

    fn meter(&self, state: &[u8], rows: &mut [u8]) -> Answer {
        Answer::of(library::meter(state, rows))
    }

    fn bound(&self, sections: &[u8], task: u16, allowance: u32, out: &mut [u8]) -> Answer {
        Answer::of(library::bound(sections, task, allowance, out))
    }

    fn replay(&self, trace: &[u8], out: &mut [u8]) -> Answer {
        Answer::of(library::replay(trace, out))
    }
}
