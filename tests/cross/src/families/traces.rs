//! Traces from fresh, good and damaged, and runs compared step by step.
//!
//! Assumes nothing.

use crate::case::Case;
use crate::sides::Call;
use crate::wanted::damage_name;
use second::generate::coverage::Coverage;
use second::generate::damage::{damaged_trace, trace_with, Damage};
use second::generate::random::Random;
use second::generate::runs::Run;
use second::image::encode;
use second::library::METER_ROW_BYTES;
use second::replay::replay;
use second::state::{fresh, State};
use second::step::{step_sound, Event};

/// The most random events that follow a scene.
const LONGEST: usize = 100;
/// In a damaged trace the events before the fault matter less.
const LONGEST_DAMAGED: usize = 30;

/// A step of the second program, noted.
pub fn noted_step(coverage: &mut Coverage, state: &mut State, event: Event) {
    let before = *state;
    let answer = step_sound(state, event);
    coverage.note_step(&before, event, answer, state);
}

/// A scene and up to so many random events after it.
pub fn any_run(random: &mut Random, longest: usize) -> Run {
    let length = random.index(longest + 1);
    Run::any(random.draw(), length)
}

pub fn replay_case(trace: Vec<u8>) -> Case {
    Case::Replay { trace, missing: 0 }
}

pub fn good(random: &mut Random, _: u64, coverage: &mut Coverage) -> Vec<Case> {
    let run = any_run(random, LONGEST);
    let (mut state, _) = fresh(&run.table);
    for &event in &run.events {
        noted_step(coverage, &mut state, event);
    }
    let trace = run.trace();
    coverage.note_listing(&replay(&trace));
    vec![replay_case(trace)]
}

/// Each kind of damage in turn, then several kinds at once.
pub fn damaged(random: &mut Random, number: u64, coverage: &mut Coverage) -> Vec<Case> {
    let run = any_run(random, LONGEST_DAMAGED);
    let turn = number as usize % (Damage::ALL.len() + 1);
    let trace = match Damage::ALL.get(turn) {
        Some(&damage) => {
            coverage.note(damage_name(damage));
            trace_with(random, &run, damage)
        }
        None => damaged_trace(random, &run),
    };
    coverage.note_listing(&replay(&trace));
    let mut cases = vec![replay_case(trace.clone())];
    if random.one_in(20) {
        coverage.note("replay refused 0".to_string());
        let missing = 1 + random.index(4_000);
        cases.push(Case::Replay { trace, missing });
    }
    cases
}

/// One event, and the meter rows after it.
pub fn compared_step(coverage: &mut Coverage, state: &mut State, event: Event) -> [Case; 2] {
    let step = Case::Step {
        state: encode(state),
        call: Call::from(event),
    };
    noted_step(coverage, state, event);
    let meter = Case::Meter {
        state: encode(state),
        room: METER_ROW_BYTES * usize::from(state.tasks),
    };
    [step, meter]
}

pub fn step_by_step(random: &mut Random, _: u64, coverage: &mut Coverage) -> Vec<Case> {
    let run = Run::any(random.draw(), LONGEST);
    let (mut state, _) = fresh(&run.table);
    let mut cases = Vec::new();
    for &event in &run.events {
        cases.extend(compared_step(coverage, &mut state, event));
    }
    cases
}
