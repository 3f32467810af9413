//! A trace stepped through the proved static library: the state after each event, and the listing.
//!
//! Assumes nothing of the bytes. A faulty trace is stepped up to the stop that the library tells.

use crate::records::{records, Record};
use crate::snapshot::Snapshot;
use vesztamor::{replay, Answer, Event, State};

/// One event, what the library answered, and the state that it left.
#[derive(Clone, Debug)]
pub struct Moment {
    /// From 1, as the listing counts.
    pub number: usize,
    pub event: Event,
    pub answer: Answer,
    /// The clock before it; the clock after it is the state's.
    pub start: u32,
    pub after: Snapshot,
}

/// Where and why a faulty trace ends.
#[derive(Clone, Copy, Debug, PartialEq, Eq)]
pub struct Stop {
    pub offset: usize,
    pub number: u32,
}

#[derive(Clone, Debug)]
pub struct Run {
    /// The library's text.
    pub listing: String,
    pub stop: Option<Stop>,
    /// The state before the first event; none where the table is faulty.
    pub fresh: Option<Snapshot>,
    pub moments: Vec<Moment>,
}

impl Run {
    pub fn of(bytes: &[u8]) -> Run {
        let listing = String::from_utf8_lossy(&replay(bytes)).into_owned();
        let stop = stop_of(&listing);
        let end = stop.map_or(bytes.len(), |stop| stop.offset.min(bytes.len()));
        let records = records(&bytes[..end]);
        let mut run = Run {
            listing,
            stop,
            fresh: None,
            moments: Vec::new(),
        };
        if let Ok(state) = State::fresh(&table(&records)) {
            run.fresh = Some(Snapshot::of(&state));
            run.step(state, &records);
        }
        run
    }

    fn step(&mut self, mut state: State, records: &[Record]) {
        let mut clock = 0;
        for record in records {
            if let Record::Event(event) = *record {
                let answer = state.step(event);
                let after = Snapshot::of(&state);
                let (start, now) = (clock, after.clock);
                self.moments.push(Moment {
                    number: self.moments.len() + 1,
                    event,
                    answer,
                    start,
                    after,
                });
                clock = now;
            }
        }
    }

    /// The last state, if there is any.
    pub fn last(&self) -> Option<&Snapshot> {
        let last = self.moments.last().map(|moment| &moment.after);
        last.or(self.fresh.as_ref())
    }

    /// What happens from one tick to another. An event at either tick belongs to it, and so does
    /// an elapse of which a part lies between them.
    pub fn view(&self, from: Option<u32>, to: Option<u32>) -> Option<View<'_>> {
        let fresh = self.fresh.as_ref()?;
        let from = from.unwrap_or(0);
        let end = self.last().map_or(0, |state| state.clock);
        let to = to.unwrap_or(end).max(from);
        let first = self.moments.partition_point(|m| m.after.clock < from);
        let end = self
            .moments
            .partition_point(|m| m.start < to || m.after.clock <= to);
        let before = first.checked_sub(1).map(|i| &self.moments[i].after);
        Some(View {
            from,
            to,
            first: first + 1,
            before: before.unwrap_or(fresh),
            moments: &self.moments[first..end.max(first)],
            whole: end >= self.moments.len(),
        })
    }
}

/// A part of a run.
#[derive(Clone, Copy, Debug)]
pub struct View<'a> {
    pub from: u32,
    pub to: u32,
    /// The number of its first event, should it have one.
    pub first: usize,
    /// The state before that.
    pub before: &'a Snapshot,
    pub moments: &'a [Moment],
    /// Whether it goes to the run's end.
    pub whole: bool,
}

impl View<'_> {
    /// The state after its last event.
    pub fn last(&self) -> &Snapshot {
        self.moments
            .last()
            .map_or(self.before, |moment| &moment.after)
    }
}

/// The table in bytes: the bodies of its records, one after the other.
fn table(records: &[Record]) -> Vec<u8> {
    let bodies = records.iter().map_while(|record| match record {
        Record::Table(body) => Some(*body),
        Record::Event(_) => None,
    });
    bodies.flatten().copied().collect()
}

/// The stop that a listing ends with.
fn stop_of(listing: &str) -> Option<Stop> {
    let mut words = listing.lines().last()?.strip_prefix("stop ")?.split(' ');
    let offset = words.next()?.parse().ok()?;
    let number = words.next()?.parse().ok()?;
    Some(Stop { offset, number })
}
