//! The records of a trace, as `docs/TRACE.md` lays them out.
//!
//! Assumes nothing of the bytes. Nothing is judged here: reading ends at the first record that is
//! no table entry and no event, and the library's listing says what is wrong with it.

use vesztamor::Event;

#[derive(Clone, Copy, Debug, PartialEq, Eq)]
pub enum Record<'a> {
    /// The body of kind 16 or 17, which is a part of a table in bytes.
    Table(&'a [u8]),
    Event(Event),
}

const LENGTH_SIZE: usize = 2;
const KIND_SIZE: usize = 2;

/// The records that can be read, from the first on.
pub fn records(bytes: &[u8]) -> Vec<Record<'_>> {
    let mut found = Vec::new();
    let mut rest = bytes;
    while let Some((record, after)) = record(rest) {
        found.push(record);
        rest = after;
    }
    found
}

/// The record that stands first, and what follows it.
fn record(bytes: &[u8]) -> Option<(Record<'_>, &[u8])> {
    let (length, rest) = bytes.split_first_chunk::<LENGTH_SIZE>()?;
    let (contents, after) = rest.split_at_checked(u16::from_le_bytes(*length).into())?;
    let (kind, body) = contents.split_first_chunk::<KIND_SIZE>()?;
    Some((of_kind(u16::from_le_bytes(*kind), body)?, after))
}

fn of_kind(kind: u16, body: &[u8]) -> Option<Record<'_>> {
    let event = match (kind, body) {
        (16, [_, _, _, _, _, _]) => return Some(Record::Table(body)),
        (17, [_, _, _, _, _, _, _, _, _, _]) => return Some(Record::Table(body)),
        (5, &[a, b, c, d]) => Event::Elapse {
            ticks: u32::from_le_bytes([a, b, c, d]),
        },
        (7 | 8, &[a, b, c, d]) => {
            let task = u16::from_le_bytes([a, b]);
            let resource = u16::from_le_bytes([c, d]);
            match kind {
                7 => Event::Lock { task, resource },
                _ => Event::Unlock { task, resource },
            }
        }
        (_, &[a, b]) => of_one_number(kind, u16::from_le_bytes([a, b]))?,
        _ => return None,
    };
    Some(Record::Event(event))
}

fn of_one_number(kind: u16, number: u16) -> Option<Event> {
    let (task, server) = (number, number);
    match kind {
        1 => Some(Event::Wake { task }),
        2 => Some(Event::Suspend { task }),
        3 => Some(Event::Dispatch { server }),
        4 => Some(Event::Preempt { server }),
        6 => Some(Event::Recharge { server }),
        _ => None,
    }
}
