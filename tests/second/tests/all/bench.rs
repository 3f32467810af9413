//! Words for the tests: short names for numbers and events, a machine to try events on, and the
//! bytes of traces.
//!
//! Assumes that a test asks for good tables where it says `Machine::new`.

use second::bound::{Section, SectionTable};
use second::generate::runs::{encode, framed};
use second::refusal::Refusal;
use second::replay::replay;
use second::state::{
    fresh, Counts, Reservation, ResourceNumber, ServerNumber, State, Table, TaskNumber,
};
use second::step::{step, Event, Outcome};
use second::trace::Record;

pub fn task(number: u16) -> TaskNumber {
    TaskNumber(number)
}

pub fn server(number: u16) -> ServerNumber {
    ServerNumber(number)
}

pub fn resource(number: u16) -> ResourceNumber {
    ResourceNumber(number)
}

pub fn wake(number: u16) -> Event {
    Event::Wake(task(number))
}

pub fn suspend(number: u16) -> Event {
    Event::Suspend(task(number))
}

pub fn dispatch(number: u16) -> Event {
    Event::Dispatch(server(number))
}

pub fn preempt(number: u16) -> Event {
    Event::Preempt(server(number))
}

pub fn elapse(ticks: u32) -> Event {
    Event::Elapse(ticks)
}

pub fn recharge(number: u16) -> Event {
    Event::Recharge(server(number))
}

pub fn lock(by: u16, of: u16) -> Event {
    Event::Lock(task(by), resource(of))
}

pub fn unlock(by: u16, of: u16) -> Event {
    Event::Unlock(task(by), resource(of))
}

/// A table whose tasks declare all resources, from the Q and P of each.
pub fn open_table(processors: u16, resources: u16, reservations: &[(u32, u32)]) -> Table {
    let mut table = Table {
        counts: Counts {
            processors,
            tasks: reservations.len() as u16,
            resources,
        },
        ..Table::default()
    };
    let declared = ((1u32 << resources) - 1) as u16;
    for (row, &(quota, period)) in table.rows.iter_mut().zip(reservations) {
        *row = Reservation {
            quota,
            period,
            declared,
        };
    }
    table
}

/// A state under test; every answer is checked for what must hold after any event.
pub struct Machine {
    pub state: State,
}

impl Machine {
    pub fn new(processors: u16, resources: u16, reservations: &[(u32, u32)]) -> Machine {
        Machine::of(&open_table(processors, resources, reservations))
    }

    pub fn of(table: &Table) -> Machine {
        let (state, answer) = fresh(table);
        assert_eq!(answer, Ok(()));
        assert!(state.is_sound());
        Machine { state }
    }

    /// Carries out an event that must be accepted.
    pub fn accept(&mut self, event: Event) -> Outcome {
        let answer = step(&mut self.state, event);
        let outcome = answer.unwrap_or_else(|refusal| panic!("{event:?}: {refusal:?}"));
        assert_eq!(self.state.broken_clauses(), [], "after {event:?}");
        outcome
    }

    pub fn accept_all(&mut self, events: &[Event]) {
        for &event in events {
            self.accept(event);
        }
    }

    /// Brings tasks to execute in their own servers.
    pub fn start(&mut self, tasks: &[u16]) {
        for &number in tasks {
            self.accept(wake(number));
            self.accept(dispatch(number));
        }
    }

    /// What the event is refused with; the state must stay.
    pub fn refusal(&mut self, event: Event) -> Refusal {
        let before = self.state;
        let refusal = step(&mut self.state, event).expect_err("accepted");
        assert_eq!(self.state, before);
        refusal
    }

    /// The number that the event is refused with.
    pub fn refuse(&mut self, event: Event) -> u16 {
        self.refusal(event).number()
    }

    /// The server that executes a task.
    pub fn executor(&self, number: u16) -> Option<u16> {
        self.state[task(number)].runs.map(|server| server.0)
    }

    /// The task that a server serves.
    pub fn served(&self, number: u16) -> u16 {
        self.state.served_by(server(number)).0
    }
}

pub fn counts(processors: u16, tasks: u16, resources: u16) -> Vec<u8> {
    encode(&Record::Counts(Counts {
        processors,
        tasks,
        resources,
    }))
}

pub fn row(quota: u32, period: u32, declared: u16) -> Vec<u8> {
    encode(&Record::Reservation(Reservation {
        quota,
        period,
        declared,
    }))
}

pub fn event(event: Event) -> Vec<u8> {
    encode(&Record::Event(event))
}

/// A record of any kind and body.
pub fn record(kind: u16, body: &[u8]) -> Vec<u8> {
    framed(kind, body)
}

/// The listing of these pieces of a file, put together.
pub fn listing(pieces: &[Vec<u8>]) -> String {
    String::from_utf8(replay(&pieces.concat())).expect("a listing is text")
}

/// The offset at which the piece of that number stands.
pub fn offset(pieces: &[Vec<u8>], number: usize) -> usize {
    pieces[..number].concat().len()
}

/// A table of sections from task, resource, length and parent.
pub fn section_table(tasks: u16, sections: &[(u16, u16, u32, Option<u16>)]) -> SectionTable {
    let sections = sections
        .iter()
        .map(|&(of_task, on, length, parent)| Section {
            task: task(of_task),
            resource: resource(on),
            length,
            parent,
        })
        .collect();
    SectionTable { tasks, sections }
}
