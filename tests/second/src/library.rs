//! The functions of the static library as this program answers them, on numbers and lent bytes:
//! the other side of the cross-check. Layouts and answers are those of docs/STATE.md.
//!
//! Assumes nothing of the bytes and numbers. A refusal writes nothing.

use crate::bound::{bound as bound_of, Section, SectionTable, SECTION_LIMIT};
use crate::image::{decode, encode, phase_byte, write, STATE_BYTES};
use crate::meter::{read_meters, MeterRow};
use crate::refusal::Refusal;
use crate::replay::replay as listing_of;
use crate::state::{
    fresh as fresh_of, Counts, Execution, Reservation, ResourceNumber, ServerNumber, State, Table,
    TaskNumber, TASK_LIMIT,
};
use crate::step::{step_sound, Event, Outcome};

pub const BOUND_BYTES: usize = 12;
pub const METER_ROW_BYTES: usize = 17;
const ROW_BYTES: usize = 10;
const SECTION_BYTES: usize = 9;
const NO_PARENT: u8 = 255;
/// The number of this layout of states, tables, rows and answers.
const LAYOUT: u64 = 1;
/// Memory lent for a result has the wrong length.
const WRONG_ROOM: u16 = 0;

const OK: u64 = 0;
const EXECUTES: u64 = 1;
const SPINS: u64 = 2;
const REFUSED: u64 = 7;

/// An answer as one number: the word from bit 56 on, what follows the number from bit 32 on, one
/// more than it so that 0 is nothing, and the number below.
fn packed(word: u64, number: u32, follows: Option<u16>) -> u64 {
    let further = follows.map_or(0, |follows| u64::from(follows) + 1);
    word << 56 | further << 32 | u64::from(number)
}

fn refused(refusal: Refusal) -> u64 {
    packed(REFUSED, u32::from(refusal.number()), refusal.follows())
}

fn wrong_room() -> u64 {
    packed(REFUSED, u32::from(WRONG_ROOM), None)
}

fn outcome(outcome: Outcome) -> u64 {
    let word = match outcome {
        Outcome::Ok(_) => OK,
        Outcome::Executes(_) => EXECUTES,
        Outcome::Spins(_) => SPINS,
        Outcome::Granted(_) => 3,
        Outcome::Waits(_) => 4,
        Outcome::Passed(_) => 5,
        Outcome::Freed(_) => 6,
    };
    packed(word, outcome.number(), None)
}

pub fn layout() -> u64 {
    LAYOUT
}

/// The room that the listing of a trace of so many bytes is given.
pub fn text_bytes(trace: usize) -> usize {
    13 * trace + 4000
}

pub fn fresh(table: &[u8], state: &mut [u8]) -> u64 {
    if state.len() != STATE_BYTES {
        return wrong_room();
    }
    let Some(table) = table_in(table) else {
        return refused(Refusal::CountsOutOfRange);
    };
    match fresh_of(&table) {
        (made, Ok(())) => {
            // All bytes: those past the counts become 0.
            state.copy_from_slice(&encode(&made));
            packed(OK, 0, None)
        }
        (_, Err(refusal)) => refused(refusal),
    }
}

fn sound_state(bytes: &[u8]) -> Option<State> {
    decode(bytes).filter(State::is_sound)
}

pub fn is_sound(state: &[u8]) -> u64 {
    match sound_state(state) {
        Some(_) => packed(OK, 0, None),
        None => refused(Refusal::StateNotSound),
    }
}

/// Refusals in ascending order: of the state, of the kind, of the event itself.
pub fn step(state: &mut [u8], kind: u16, number: u16, resource: u16, ticks: u32) -> u64 {
    let Some(mut held) = sound_state(state) else {
        return refused(Refusal::StateNotSound);
    };
    let Some(event) = event_of(kind, number, resource, ticks) else {
        return refused(Refusal::RecordMalformed);
    };
    match step_sound(&mut held, event) {
        Ok(answer) => {
            write(&held, state);
            outcome(answer)
        }
        Err(refusal) => refused(refusal),
    }
}

pub fn executing(state: &[u8], server: u16) -> u64 {
    let Some(state) = decode(state) else {
        return refused(Refusal::StateNotSound);
    };
    match state.executing(ServerNumber(server)) {
        Execution::Executes(task) => packed(EXECUTES, u32::from(task.0), None),
        Execution::Spins(task) => packed(SPINS, u32::from(task.0), None),
        Execution::NotRunning => packed(OK, 0, None),
    }
}

/// Rows that are not whole are told before the state is looked at.
pub fn meter(state: &[u8], lent: &mut [u8]) -> u64 {
    if !lent.len().is_multiple_of(METER_ROW_BYTES) {
        return wrong_room();
    }
    let Some(state) = decode(state) else {
        return refused(Refusal::StateNotSound);
    };
    let mut rows = vec![MeterRow::default(); lent.len() / METER_ROW_BYTES];
    match read_meters(&state, &mut rows) {
        Ok(answer) => {
            let places = lent.chunks_mut(METER_ROW_BYTES);
            for (place, row) in places.zip(&rows).take(answer.number() as usize) {
                place.copy_from_slice(&meter_row_bytes(row));
            }
            outcome(answer)
        }
        Err(refusal) => refused(refusal),
    }
}

fn meter_row_bytes(row: &MeterRow) -> Vec<u8> {
    let mut bytes = vec![phase_byte(row.phase)];
    for number in [row.budget, row.own, row.lent, row.spin] {
        bytes.extend(number.to_le_bytes());
    }
    bytes
}

pub fn bound(sections: &[u8], task: u16, allowance: u32, out: &mut [u8]) -> u64 {
    if out.len() != BOUND_BYTES {
        return wrong_room();
    }
    let Some(table) = sections_in(sections) else {
        return refused(Refusal::SectionCountsOutOfRange);
    };
    match bound_of(&table, TaskNumber(task), allowance) {
        Ok(bound) => {
            out[..8].copy_from_slice(&bound.ticks.to_le_bytes());
            out[8..].copy_from_slice(&bound.weighings.to_le_bytes());
            packed(OK, BOUND_BYTES as u32, None)
        }
        Err(refusal) => refused(refusal),
    }
}

pub fn replay(trace: &[u8], out: &mut [u8]) -> u64 {
    if out.len() < text_bytes(trace.len()) {
        return wrong_room();
    }
    let listing = listing_of(trace);
    out[..listing.len()].copy_from_slice(&listing);
    packed(OK, listing.len() as u32, None)
}

/// An event by the number that its kind has in a trace.
fn event_of(kind: u16, number: u16, resource: u16, ticks: u32) -> Option<Event> {
    let (task, server) = (TaskNumber(number), ServerNumber(number));
    let resource = ResourceNumber(resource);
    Some(match kind {
        1 => Event::Wake(task),
        2 => Event::Suspend(task),
        3 => Event::Dispatch(server),
        4 => Event::Preempt(server),
        5 => Event::Elapse(ticks),
        6 => Event::Recharge(server),
        7 => Event::Lock(task, resource),
        8 => Event::Unlock(task, resource),
        _ => return None,
    })
}

fn two(bytes: &[u8], at: usize) -> u16 {
    u16::from_le_bytes([bytes[at], bytes[at + 1]])
}

fn four(bytes: &[u8], at: usize) -> u32 {
    u32::from_le_bytes([bytes[at], bytes[at + 1], bytes[at + 2], bytes[at + 3]])
}

/// A table of tasks, if the bytes have just the length that their task count asks for. Rows past
/// the sixteen are left out; such counts are refused anyway.
fn table_in(bytes: &[u8]) -> Option<Table> {
    let (counts, rows) = bytes.split_at_checked(6)?;
    let counts = Counts {
        processors: two(counts, 0),
        tasks: two(counts, 2),
        resources: two(counts, 4),
    };
    if rows.len() != ROW_BYTES * usize::from(counts.tasks) {
        return None;
    }
    let mut table = Table {
        counts,
        ..Table::default()
    };
    for (row, bytes) in table.rows.iter_mut().zip(rows.chunks(ROW_BYTES)) {
        *row = Reservation {
            quota: four(bytes, 0),
            period: four(bytes, 4),
            declared: two(bytes, 8),
        };
    }
    Some(table)
}

/// A table's bytes; its count of tasks may be any, and there is a row for each.
pub fn table_bytes(table: &Table) -> Vec<u8> {
    let Counts {
        processors,
        tasks,
        resources,
    } = table.counts;
    let mut bytes = Vec::new();
    for count in [processors, tasks, resources] {
        bytes.extend(count.to_le_bytes());
    }
    for number in 0..usize::from(tasks) {
        let row = table.rows[number % TASK_LIMIT];
        bytes.extend(row.quota.to_le_bytes());
        bytes.extend(row.period.to_le_bytes());
        bytes.extend(row.declared.to_le_bytes());
    }
    bytes
}

/// A table of sections, if the bytes have just the length that their count asks for.
fn sections_in(bytes: &[u8]) -> Option<SectionTable> {
    let (counts, rows) = bytes.split_at_checked(4)?;
    if rows.len() != SECTION_BYTES * usize::from(two(counts, 2)) {
        return None;
    }
    // One more than allowed is enough to be refused.
    let sections = rows.chunks(SECTION_BYTES).take(SECTION_LIMIT + 1);
    Some(SectionTable {
        tasks: two(counts, 0),
        sections: sections.map(section_in).collect(),
    })
}

fn section_in(bytes: &[u8]) -> Section {
    let parent = bytes[8];
    Section {
        task: TaskNumber(two(bytes, 0)),
        resource: ResourceNumber(two(bytes, 2)),
        length: four(bytes, 4),
        parent: (parent != NO_PARENT).then_some(u16::from(parent)),
    }
}

/// A table's bytes; parents are below 255.
pub fn section_bytes(table: &SectionTable) -> Vec<u8> {
    let mut bytes = table.tasks.to_le_bytes().to_vec();
    bytes.extend((table.sections.len() as u16).to_le_bytes());
    for section in &table.sections {
        bytes.extend(section.task.0.to_le_bytes());
        bytes.extend(section.resource.0.to_le_bytes());
        bytes.extend(section.length.to_le_bytes());
        bytes.push(section.parent.map_or(NO_PARENT, |parent| parent as u8));
    }
    bytes
}
