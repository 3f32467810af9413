//! Given states: sound ones that no events from fresh need reach, ones in which a single clause of
//! soundness is broken, and ones with a few fields changed to anything, which need be no state's.
//! On each: is it sound, what does each server do, one or more events, and its meter rows. Often any
//! bytes stand past the counts.
//!
//! Assumes nothing.

use super::traces::any_run;
use crate::answer::{Answer, REFUSED};
use crate::case::Case;
use crate::layout::fields;
use crate::sides::Call;
use crate::wanted::{LITTERED, OUT_OF_REACH};
use second::generate::coverage::Coverage;
use second::generate::events::{next_event, possible_events, Kind, Manner};
use second::generate::random::Random;
use second::generate::states::{broken_state, perturbed_state, sound_state, tangled_state};
use second::image::{decode, encode, write, STATE_BYTES};
use second::library::{meter, METER_ROW_BYTES};
use second::state::{fresh, Clause, Execution, ServerNumber, State, TaskNumber, TASK_LIMIT};
use second::step::{step, step_sound, Event};

/// Server numbers up to one past those that a machine can have, and the largest.
const LAST_SERVER_ASKED: u16 = 17;
/// The events of a run before its state is perturbed, at most.
const LONGEST_RUN: usize = 40;
const LIKELY_EVENTS: usize = 3;
const EVENTS_ON_UNSOUND: usize = 2;

pub fn made_up(random: &mut Random, _: u64, coverage: &mut Coverage) -> Vec<Case> {
    coverage.note("given state: made up".to_string());
    let state = sound_state(random);
    asked_of_sound(random, coverage, &state)
}

pub fn perturbed(random: &mut Random, _: u64, coverage: &mut Coverage) -> Vec<Case> {
    coverage.note("given state: perturbed".to_string());
    let run = any_run(random, LONGEST_RUN);
    let (mut reached, _) = fresh(&run.table);
    for &event in &run.events {
        let _ = step_sound(&mut reached, event);
    }
    let state = perturbed_state(random, &reached);
    asked_of_sound(random, coverage, &state)
}

/// Each clause in turn.
pub fn broken(random: &mut Random, number: u64, coverage: &mut Coverage) -> Vec<Case> {
    let clause = Clause::ALL[number as usize % Clause::ALL.len()];
    let state = broken_state(random, clause);
    coverage.note_broken_alone(clause);
    let bytes = littered(random, coverage, &state);
    asked_of_any(random, coverage, bytes)
}

/// A state's bytes, every other time with any bytes past its counts.
fn littered(random: &mut Random, coverage: &mut Coverage, state: &State) -> Vec<u8> {
    if random.one_in(2) {
        return encode(state);
    }
    coverage.note(LITTERED.to_string());
    let mut bytes: Vec<u8> = (0..STATE_BYTES).map(|_| random.draw() as u8).collect();
    write(state, &mut bytes);
    bytes
}

/// Waits and owners tangled, or any fields changed, or both.
pub fn changed(random: &mut Random, number: u64, coverage: &mut Coverage) -> Vec<Case> {
    let (state, fewest) = match number.is_multiple_of(2) {
        true => (tangled_state(random), 0),
        false => (sound_state(random), 1),
    };
    let mut bytes = encode(&state);
    for _ in 0..random.between(fewest, 3) {
        let field = &fields()[random.index(fields().len())];
        let value = changed_value(random, field.value(&bytes));
        field.set(&mut bytes, value);
    }
    if random.one_in(50) {
        bytes.truncate(random.index(bytes.len()));
    } else if random.one_in(50) {
        bytes.push(0);
    }
    coverage.note(match decode(&bytes) {
        None => "given state: no state's bytes".to_string(),
        Some(state) if state.is_sound() => "given state: changed fields, sound".to_string(),
        Some(_) => "given state: changed fields, not sound".to_string(),
    });
    asked_of_any(random, coverage, bytes)
}

/// A value near the old one, near a limit, or anything.
fn changed_value(random: &mut Random, old: u32) -> u32 {
    let limits = [0, 1, 2, 3, 4, 15, 16, 17, u32::from(u16::MAX), u32::MAX];
    match random.index(4) {
        0 => old.wrapping_add(1),
        1 => old.wrapping_sub(1),
        2 => limits[random.index(limits.len())],
        _ => random.draw() as u32,
    }
}

/// One event of each kind, and some that the state likely accepts.
fn asked_of_sound(random: &mut Random, coverage: &mut Coverage, state: &State) -> Vec<Case> {
    let mut events: Vec<Event> = Vec::new();
    for kind in Kind::ALL {
        let possible = possible_events(random, state, kind);
        events.extend(random.pick(&possible));
    }
    for _ in 0..LIKELY_EVENTS {
        let manner = Manner::any(random);
        events.push(next_event(random, &manner, state));
    }
    if is_out_of_reach(state) {
        coverage.note(OUT_OF_REACH.to_string());
    }
    let bytes = littered(random, coverage, state);
    let mut cases = questions(coverage, &bytes, Some(state));
    for event in events {
        cases.push(noted_step(coverage, &bytes, Some(state), event));
    }
    if random.one_in(10) {
        cases.push(unknown_kind(random, coverage, bytes.clone()));
    }
    cases.push(noted_meter(random, coverage, bytes, Some(state)));
    cases
}

/// A run from fresh keeps the sum of own and lent ticks at that of executed ones (rule 8.2).
fn is_out_of_reach(state: &State) -> bool {
    let ticks = |server: ServerNumber| u64::from(state[server].own) + u64::from(state[server].lent);
    let executed = |task: TaskNumber| u64::from(state[task].executed);
    let total_ticks: u64 = state.server_numbers().map(ticks).sum();
    total_ticks != state.task_numbers().map(executed).sum()
}

/// A few events with any numbers.
fn asked_of_any(random: &mut Random, coverage: &mut Coverage, bytes: Vec<u8>) -> Vec<Case> {
    let state = decode(&bytes);
    let numbers = state.filter(State::is_sound);
    let numbers = numbers.unwrap_or_else(|| sound_state(random));
    let mut cases = questions(coverage, &bytes, state.as_ref());
    for _ in 0..EVENTS_ON_UNSOUND {
        let kind = Kind::ALL[random.index(Kind::ALL.len())];
        let possible = possible_events(random, &numbers, kind);
        let event = random.pick(&possible);
        cases.extend(event.map(|event| noted_step(coverage, &bytes, state.as_ref(), event)));
    }
    if random.one_in(10) {
        cases.push(unknown_kind(random, coverage, bytes.clone()));
    }
    cases.push(noted_meter(random, coverage, bytes, state.as_ref()));
    cases
}

/// Whether it is sound, and what each server does.
fn questions(coverage: &mut Coverage, bytes: &[u8], state: Option<&State>) -> Vec<Case> {
    let state_bytes = || bytes.to_vec();
    let sound = state.is_some_and(State::is_sound);
    let told = if sound { "ok" } else { "refused 1" };
    coverage.note(format!("is_sound {told}"));
    let mut cases = vec![Case::Sound {
        state: state_bytes(),
    }];
    for server in (0..=LAST_SERVER_ASKED).chain([u16::MAX]) {
        let does = match state.map(|state| state.executing(ServerNumber(server))) {
            Some(Execution::Executes(_)) => "executes",
            Some(Execution::Spins(_)) => "spins",
            Some(Execution::NotRunning) => "not running",
            None => "refused 1",
        };
        coverage.note(format!("executing {does}"));
        cases.push(Case::Executing {
            state: state_bytes(),
            server,
        });
    }
    cases
}

fn noted_step(coverage: &mut Coverage, bytes: &[u8], state: Option<&State>, event: Event) -> Case {
    if let Some(before) = state {
        let mut after = *before;
        let answer = step(&mut after, event);
        coverage.note_step(before, event, answer, &after);
    } else {
        coverage.note("step on no state's bytes".to_string());
    }
    Case::Step {
        state: bytes.to_vec(),
        call: Call::from(event),
    }
}

/// Rows for as many servers as there are, for fewer or for more; now and then no whole rows.
fn noted_meter(
    random: &mut Random,
    coverage: &mut Coverage,
    bytes: Vec<u8>,
    state: Option<&State>,
) -> Case {
    let tasks = state.map_or(TASK_LIMIT, |state| usize::from(state.tasks).min(TASK_LIMIT));
    let lent = match random.index(4) {
        0 => tasks,
        1 => tasks.saturating_sub(1),
        2 => tasks + 1 + random.index(2),
        _ => random.index(TASK_LIMIT + 3),
    };
    let mut room = METER_ROW_BYTES * lent;
    if random.one_in(10) {
        room += 1 + random.index(METER_ROW_BYTES - 1);
    }
    if state.is_none() {
        coverage.note("meter on no state's bytes".to_string());
    }
    match Answer::of(meter(&bytes, &mut vec![0; room])) {
        Answer {
            word: REFUSED,
            number,
            ..
        } => coverage.note(format!("meter refused {number}")),
        _ => coverage.note("meter ok".to_string()),
    }
    if lent > tasks {
        coverage.note("meter with rows past the tasks".to_string());
    }
    Case::Meter { state: bytes, room }
}

fn unknown_kind(random: &mut Random, coverage: &mut Coverage, state: Vec<u8>) -> Case {
    coverage.note("step of an unknown kind".to_string());
    let kinds = [0, 9, 16, 17, 256, u16::MAX];
    let call = Call {
        kind: kinds[random.index(kinds.len())],
        ..Call::default()
    };
    Case::Step { state, call }
}
