//! Runs: a table, a scene and then random events; and their traces.
//!
//! Assumes nothing. The same seed and length give the same run.

use super::events::{next_event, Manner};
use super::random::Random;
use super::scenes::Scene;
use crate::state::{Reservation, Table};
use crate::step::Event;
use crate::trace::Record;

#[derive(Clone, Debug)]
pub struct Run {
    pub table: Table,
    pub events: Vec<Event>,
}

impl Run {
    /// A scene followed by so many random events.
    pub fn any(seed: u64, length: usize) -> Run {
        let mut random = Random::new(seed);
        let mut director = Scene::any(&mut random).prepare(&mut random);
        let mut manner = Manner::any(&mut random);
        for _ in 0..length {
            if random.one_in(25) {
                manner = Manner::any(&mut random);
            }
            let event = next_event(&mut random, &manner, &director.state);
            director.act(event);
        }
        Run {
            table: director.table,
            events: director.events,
        }
    }

    /// The records of its trace, the table first.
    pub fn records(&self) -> Vec<Record> {
        let counts = std::iter::once(Record::Counts(self.table.counts));
        let rows = self.table.used_rows().iter().copied();
        counts
            .chain(rows.map(Record::Reservation))
            .chain(self.events.iter().copied().map(Record::Event))
            .collect()
    }

    pub fn trace(&self) -> Vec<u8> {
        self.records().iter().flat_map(encode).collect()
    }
}

/// A record's bytes: the length of what follows, the kind and the body.
pub fn encode(record: &Record) -> Vec<u8> {
    let (kind, body) = match *record {
        Record::Counts(counts) => {
            let numbers = [counts.processors, counts.tasks, counts.resources];
            (16, two_bytes_each(&numbers))
        }
        Record::Reservation(row) => (17, reservation_body(row)),
        Record::Event(event) => event_body(event),
    };
    framed(kind, &body)
}

/// A kind and a body of any length, with the length field in front.
pub fn framed(kind: u16, body: &[u8]) -> Vec<u8> {
    let length = (body.len() + 2) as u16;
    let mut bytes = two_bytes_each(&[length, kind]);
    bytes.extend(body);
    bytes
}

fn two_bytes_each(numbers: &[u16]) -> Vec<u8> {
    numbers
        .iter()
        .flat_map(|number| number.to_le_bytes())
        .collect()
}

fn reservation_body(row: Reservation) -> Vec<u8> {
    let mut body = row.quota.to_le_bytes().to_vec();
    body.extend(row.period.to_le_bytes());
    body.extend(row.declared.to_le_bytes());
    body
}

fn event_body(event: Event) -> (u16, Vec<u8>) {
    match event {
        Event::Wake(task) => (1, two_bytes_each(&[task.0])),
        Event::Suspend(task) => (2, two_bytes_each(&[task.0])),
        Event::Dispatch(server) => (3, two_bytes_each(&[server.0])),
        Event::Preempt(server) => (4, two_bytes_each(&[server.0])),
        Event::Elapse(ticks) => (5, ticks.to_le_bytes().to_vec()),
        Event::Recharge(server) => (6, two_bytes_each(&[server.0])),
        Event::Lock(task, resource) => (7, two_bytes_each(&[task.0, resource.0])),
        Event::Unlock(task, resource) => (8, two_bytes_each(&[task.0, resource.0])),
    }
}
