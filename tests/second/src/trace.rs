//! Reading a trace (rules 13.1 to 13.8): its records one at a time, and the order in which they
//! must come.
//!
//! Assumes nothing of the bytes.

use crate::refusal::{require, Refusal};
use crate::state::{Counts, Reservation, ResourceNumber, ServerNumber, Table, TaskNumber};
use crate::step::Event;

pub const FILE_LIMIT: usize = 60_000;
const LENGTH_SIZE: usize = 2;
const KIND_SIZE: usize = 2;

#[derive(Clone, Copy, Debug, PartialEq, Eq)]
pub enum Record {
    /// Kind 16.
    Counts(Counts),
    /// Kind 17.
    Reservation(Reservation),
    /// Kinds 1 to 8.
    Event(Event),
}

/// A place in a trace.
#[derive(Clone, Copy, Debug, PartialEq, Eq)]
pub struct Place<'a> {
    bytes: &'a [u8],
    pub offset: usize,
}

/// What reading at a place gives: the record and the moved place, or the trace's end.
#[derive(Clone, Copy, Debug, PartialEq, Eq)]
pub enum Reading<'a> {
    Record(Record, Place<'a>),
    End,
}

/// Refusal 33. A file of exactly 60,000 bytes is allowed (rule 13.7).
pub fn check_size(bytes: &[u8]) -> Result<(), Refusal> {
    require(bytes.len() <= FILE_LIMIT, Refusal::FileTooLong)
}

impl<'a> Place<'a> {
    pub fn start(bytes: &'a [u8]) -> Place<'a> {
        Place { bytes, offset: 0 }
    }

    /// Reads the record that stands here, or tells 30 or 31 (rule 13.5).
    pub fn read(self) -> Result<Reading<'a>, Refusal> {
        let rest = &self.bytes[self.offset.min(self.bytes.len())..];
        if rest.is_empty() {
            return Ok(Reading::End);
        }
        require(rest.len() >= LENGTH_SIZE, Refusal::RecordCutShort)?;
        let length = usize::from(two_bytes(rest, 0));
        require(length >= KIND_SIZE, Refusal::RecordMalformed)?;
        let contents = &rest[LENGTH_SIZE..];
        require(contents.len() >= length, Refusal::RecordCutShort)?;
        let kind = two_bytes(contents, 0);
        let record = decode(kind, &contents[KIND_SIZE..length])?;
        let next = Place {
            bytes: self.bytes,
            offset: self.offset + LENGTH_SIZE + length,
        };
        Ok(Reading::Record(record, next))
    }
}

fn two_bytes(bytes: &[u8], at: usize) -> u16 {
    u16::from_le_bytes([bytes[at], bytes[at + 1]])
}

fn four_bytes(bytes: &[u8], at: usize) -> u32 {
    u32::from_le_bytes([bytes[at], bytes[at + 1], bytes[at + 2], bytes[at + 3]])
}

/// The record of a kind and its body, or 31 for an unknown kind or a length that is wrong for it.
fn decode(kind: u16, body: &[u8]) -> Result<Record, Refusal> {
    let expected = match kind {
        1..=4 | 6 => 2,
        5 | 7..=8 => 4,
        16 => 6,
        17 => 10,
        _ => return Err(Refusal::RecordMalformed),
    };
    require(body.len() == expected, Refusal::RecordMalformed)?;
    let task = || TaskNumber(two_bytes(body, 0));
    let server = || ServerNumber(two_bytes(body, 0));
    let resource = || ResourceNumber(two_bytes(body, 2));
    let record = match kind {
        1 => Record::Event(Event::Wake(task())),
        2 => Record::Event(Event::Suspend(task())),
        3 => Record::Event(Event::Dispatch(server())),
        4 => Record::Event(Event::Preempt(server())),
        5 => Record::Event(Event::Elapse(four_bytes(body, 0))),
        6 => Record::Event(Event::Recharge(server())),
        7 => Record::Event(Event::Lock(task(), resource())),
        8 => Record::Event(Event::Unlock(task(), resource())),
        16 => Record::Counts(Counts {
            processors: two_bytes(body, 0),
            tasks: two_bytes(body, 2),
            resources: two_bytes(body, 4),
        }),
        _ => Record::Reservation(Reservation {
            quota: four_bytes(body, 0),
            period: four_bytes(body, 4),
            declared: two_bytes(body, 8),
        }),
    };
    Ok(record)
}

/// The table as far as it has been read (rule 13.4).
#[derive(Clone, Copy, Debug, Default, PartialEq, Eq)]
pub struct TableReader {
    table: Table,
    counts_read: bool,
    rows_read: usize,
}

impl TableReader {
    /// The table once all its records have been read.
    pub fn finished(&self) -> Option<&Table> {
        let rows_wanted = usize::from(self.table.counts.tasks);
        (self.counts_read && self.rows_read == rows_wanted).then_some(&self.table)
    }

    /// Takes one record in its order and answers an event, if it is one. A record out of order is
    /// 32 whatever it holds (rule 13.6); a table record in its place is then tested with 19, 20, 21.
    pub fn accept(&mut self, record: Record) -> Result<Option<Event>, Refusal> {
        let finished = self.finished().is_some();
        let in_order = match record {
            Record::Counts(_) => !self.counts_read,
            Record::Reservation(_) => self.counts_read && !finished,
            Record::Event(_) => finished,
        };
        require(in_order, Refusal::RecordOutOfOrder)?;
        match record {
            Record::Counts(counts) => {
                counts.check()?;
                self.table.counts = counts;
                self.counts_read = true;
                Ok(None)
            }
            Record::Reservation(row) => {
                row.check(self.table.counts.resources)?;
                self.table.rows[self.rows_read] = row;
                self.rows_read += 1;
                Ok(None)
            }
            Record::Event(event) => Ok(Some(event)),
        }
    }
}
