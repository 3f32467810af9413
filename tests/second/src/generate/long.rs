//! Traces that are too long to store: the longest that is allowed, one byte more, and the clock run
//! to its limit.
//!
//! Assumes nothing. Each is the same whenever it is made.

use super::runs::{encode, Run};
use crate::state::{
    Counts, Reservation, ResourceNumber, ServerNumber, Table, TaskNumber, CLOCK_LIMIT,
    PROCESSOR_LIMIT, RESOURCE_LIMIT, TASK_LIMIT, TICK_LIMIT,
};
use crate::step::Event;
use crate::trace::{Record, FILE_LIMIT};

/// The last task, at which every chain of a round ends.
const LAST: u16 = TASK_LIMIT as u16 - 1;
/// So many servers spin for the end of a round's chain; its own server has the last processor.
const SPINNERS: u16 = PROCESSOR_LIMIT as u16 - 1;

/// Exactly 60,000 bytes: sixteen tasks wait in one chain of fifteen links, and it is taken apart
/// again from its end, over and over. Every event is accepted but the few that fill up the file.
pub fn longest() -> Vec<u8> {
    let reservation = Reservation {
        quota: 1000,
        period: 1000,
        declared: u16::MAX,
    };
    let counts = Counts {
        processors: PROCESSOR_LIMIT as u16,
        tasks: TASK_LIMIT as u16,
        resources: RESOURCE_LIMIT as u16,
    };
    let mut trace = trace_of(counts, reservation, &[]);
    let round = bytes_of(&[chain_made(), chain_unmade()].concat());
    while trace.len() + round.len() <= FILE_LIMIT {
        trace.extend(&round);
    }
    let (six, eight) = (Event::Suspend(task(0)), Event::Elapse(1));
    while !(FILE_LIMIT - trace.len()).is_multiple_of(8) {
        trace.extend(bytes_of(&[six]));
    }
    while trace.len() < FILE_LIMIT {
        trace.extend(bytes_of(&[eight]));
    }
    trace
}

/// The same and one byte more.
pub fn too_long() -> Vec<u8> {
    [longest(), vec![0]].concat()
}

/// Time passes up to the clock's limit, and is asked to pass by one tick more.
pub fn past_the_clock() -> Vec<u8> {
    let reservation = Reservation {
        quota: 1,
        period: 1,
        declared: 0,
    };
    let counts = Counts {
        processors: 1,
        tasks: 1,
        resources: 0,
    };
    let mut events = vec![Event::Elapse(TICK_LIMIT); (CLOCK_LIMIT / TICK_LIMIT) as usize];
    events.push(Event::Elapse(1));
    trace_of(counts, reservation, &events)
}

/// Each task takes the resource of its number, and waits for that of the task above it.
fn chain_made() -> Vec<Event> {
    let mut events = Vec::new();
    for number in (0..=LAST).rev() {
        let own = Event::Lock(task(number), resource(number));
        events.extend([Event::Wake(task(number)), Event::Dispatch(server(number))]);
        events.extend([own, Event::Elapse(1)]);
        if number < LAST {
            let above = Event::Lock(task(number), resource(number + 1));
            events.extend([above, Event::Preempt(server(number))]);
        }
    }
    events.extend((0..SPINNERS).map(|number| Event::Dispatch(server(number))));
    events
}

/// Each end of the chain gives up what it holds and goes to sleep; a spinning server goes on with
/// the next.
fn chain_unmade() -> Vec<Event> {
    let mut events = Vec::new();
    for number in (0..=LAST).rev() {
        if (SPINNERS..LAST).contains(&number) {
            events.push(Event::Dispatch(server(number)));
        }
        events.push(Event::Elapse(1));
        if number < LAST {
            events.push(Event::Unlock(task(number), resource(number + 1)));
        }
        events.push(Event::Unlock(task(number), resource(number)));
        events.push(Event::Suspend(task(number)));
    }
    events
}

fn task(number: u16) -> TaskNumber {
    TaskNumber(number)
}

fn server(number: u16) -> ServerNumber {
    ServerNumber(number)
}

fn resource(number: u16) -> ResourceNumber {
    ResourceNumber(number)
}

/// The trace of a table whose tasks all have one reservation.
fn trace_of(counts: Counts, reservation: Reservation, events: &[Event]) -> Vec<u8> {
    let mut table = Table {
        counts,
        ..Table::default()
    };
    table.rows.fill(reservation);
    let events = events.to_vec();
    Run { table, events }.trace()
}

fn bytes_of(events: &[Event]) -> Vec<u8> {
    let records = events.iter().copied().map(Record::Event);
    records.flat_map(|record| encode(&record)).collect()
}
