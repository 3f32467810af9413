//! Runs all generators for a number of rounds and counts what they reach.
//!
//! Assumes nothing. One seed fixes all cases.

use super::coverage::Coverage;
use super::damage::{damaged_trace, trace_with, Damage};
use super::events::{possible_events, Kind};
use super::random::Random;
use super::runs::Run;
use super::sections::{bad_question, good_question, tight_questions, Question};
use super::states::{broken_state, perturbed_state, sound_state};
use super::tables::bad_table;
use crate::meter::{read_meters, MeterRow};
use crate::refusal::Refusal;
use crate::replay::replay;
use crate::state::{fresh, Clause, State, TASK_LIMIT};
use crate::step::{step, Event};

/// How many random events follow the scene of a run.
pub const RUN_LENGTH: usize = 120;

const FRESH_REFUSALS: [Refusal; 3] = [
    Refusal::CountsOutOfRange,
    Refusal::QuotaOrPeriodOutOfRange,
    Refusal::DeclaredResourceAbsent,
];

/// All refusals of a bound but 46, which `tight_questions` reach.
const BOUND_REFUSALS: [Refusal; 6] = [
    Refusal::SectionCountsOutOfRange,
    Refusal::SectionOutOfRange,
    Refusal::ResourceNotAboveParent,
    Refusal::ChildrenTooLong,
    Refusal::NoSuchTaskInTable,
    Refusal::AllowanceOutOfRange,
];

pub fn survey(seed: u64, rounds: u64) -> Coverage {
    let mut random = Random::new(seed);
    let mut coverage = Coverage::default();
    for _ in 0..rounds {
        let run = Run::any(random.draw(), RUN_LENGTH);
        let last = survey_run(&mut coverage, &run);
        survey_traces(&mut random, &mut coverage, &run);
        survey_sections(&mut random, &mut coverage);
        survey_states(&mut random, &mut coverage, &last);
        for refusal in FRESH_REFUSALS {
            let (_, answer) = fresh(&bad_table(&mut random, refusal));
            if let Err(refusal) = answer {
                coverage.note_refusal("fresh", refusal);
            }
        }
    }
    coverage
}

/// Steps one event and notes it.
fn noted_step(coverage: &mut Coverage, state: &mut State, event: Event) {
    let before = *state;
    let answer = step(state, event);
    coverage.note_step(&before, event, answer, state);
}

fn survey_run(coverage: &mut Coverage, run: &Run) -> State {
    let (mut state, _) = fresh(&run.table);
    for &event in &run.events {
        noted_step(coverage, &mut state, event);
    }
    state
}

fn survey_traces(random: &mut Random, coverage: &mut Coverage, run: &Run) {
    coverage.note_listing(&replay(&run.trace()));
    coverage.note_listing(&replay(&damaged_trace(random, run)));
    for damage in Damage::ALL {
        coverage.note_listing(&replay(&trace_with(random, run, damage)));
    }
}

fn survey_sections(random: &mut Random, coverage: &mut Coverage) {
    let good = good_question(random);
    let mut questions: Vec<Question> = tight_questions(&good);
    questions.push(good);
    questions.extend(BOUND_REFUSALS.map(|refusal| bad_question(random, refusal)));
    for question in questions {
        match question.answer() {
            Ok(_) => coverage.note("bound ok".to_string()),
            Err(refusal) => coverage.note_refusal("bound", refusal),
        }
    }
}

fn survey_states(random: &mut Random, coverage: &mut Coverage, reached: &State) {
    for state in [sound_state(random), perturbed_state(random, reached)] {
        survey_meters(random, coverage, &state);
        survey_events(random, coverage, &state, &state);
    }
    for clause in Clause::ALL {
        let state = broken_state(random, clause);
        coverage.note_broken_alone(clause);
        survey_meters(random, coverage, &state);
        survey_events(random, coverage, &state, reached);
    }
}

/// One event of each kind on the given state, with numbers as another, sound state has them.
fn survey_events(random: &mut Random, coverage: &mut Coverage, given: &State, numbers: &State) {
    for kind in Kind::ALL {
        let events = possible_events(random, numbers, kind);
        if let Some(event) = random.pick(&events) {
            let mut state = *given;
            noted_step(coverage, &mut state, event);
        }
    }
}

fn survey_meters(random: &mut Random, coverage: &mut Coverage, state: &State) {
    let mut rows = [MeterRow::default(); TASK_LIMIT + 2];
    let lent = random.index(rows.len() + 1);
    match read_meters(state, &mut rows[..lent]) {
        Ok(_) => coverage.note("meter ok".to_string()),
        Err(refusal) => coverage.note_refusal("meter", refusal),
    }
}
