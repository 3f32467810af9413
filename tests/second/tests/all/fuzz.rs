//! Long random runs, from fresh and from given sound states, with what must hold after each event.
//!
//! Assumes nothing. Rule H is told here step by step (rules 6.1 to 6.3), from the states
//! before and after an event, and compared with what the step did.

use second::generate::events::{next_event, Manner};
use second::generate::random::Random;
use second::generate::runs::Run;
use second::generate::states::{perturbed_state, sound_state};
use second::refusal::Refusal;
use second::state::{fresh, Execution, Phase, ServerNumber, State, TaskNumber};
use second::step::{step, step_sound, Answer, Event, Outcome};
use std::cmp::Reverse;

const RUNS: u64 = 1_500;
const RUN_LENGTH: usize = 200;
const GIVEN_STATES: u64 = 4_000;
const EVENTS_PER_GIVEN_STATE: usize = 25;

#[test]
fn runs_from_fresh() {
    for seed in 0..RUNS {
        let run = Run::any(seed, RUN_LENGTH);
        let (mut state, answer) = fresh(&run.table);
        assert_eq!(answer, Ok(()), "seed {seed}");
        let mut executed_ticks = 0;
        for &event in &run.events {
            let before = state;
            let answer = step(&mut state, event);
            check_step(&before, event, answer, &state);
            if let (Event::Elapse(ticks), Ok(_)) = (event, answer) {
                executed_ticks += u64::from(ticks) * executing_tasks(&before);
            }
            // Whoever executed a task when it went to sleep is Idle still.
            let woke_nobody = matches!((event, answer), (Event::Wake(_), Ok(Outcome::Ok(0))));
            assert!(!woke_nobody, "seed {seed}");
            assert_eq!(total_own_and_lent(&state), executed_ticks, "seed {seed}");
            assert_eq!(total_executed(&state), executed_ticks, "seed {seed}");
        }
    }
}

#[test]
fn events_on_given_states() {
    for seed in 0..GIVEN_STATES {
        let mut random = Random::new(seed);
        let mut state = sound_state(&mut random);
        assert_eq!(state.broken_clauses(), [], "seed {seed}");
        let manner = Manner::any(&mut random);
        for _ in 0..EVENTS_PER_GIVEN_STATE {
            if random.one_in(4) {
                state = perturbed_state(&mut random, &state);
            }
            let event = next_event(&mut random, &manner, &state);
            let before = state;
            let answer = step(&mut state, event);
            check_step(&before, event, answer, &state);
        }
    }
}

#[test]
fn both_steps_agree_on_sound_states() {
    for seed in 0..200 {
        let run = Run::any(seed, 50);
        let (mut tested, _) = fresh(&run.table);
        let mut trusted = tested;
        for &event in &run.events {
            let answer = step(&mut tested, event);
            assert_eq!(step_sound(&mut trusted, event), answer);
            assert_eq!(tested, trusted);
        }
    }
}

fn check_step(before: &State, event: Event, answer: Answer, after: &State) {
    assert_eq!(after.broken_clauses(), [], "{event:?} from {before:?}");
    check_who_acts(before, event, answer);
    if answer.is_err() {
        assert_eq!(before, after, "{event:?}");
        return;
    }
    for task in after.task_numbers() {
        let expected = executor_by_rule_h(before, event, after, task);
        assert_eq!(after[task].runs, expected, "{event:?} from {before:?}");
        check_single_executor(after, task);
        check_chain_ends(after, task);
    }
    check_unread_entries(before, after);
}

/// A task that no Running server serves executes nowhere, and the other way round (rules 4.14, 4.15);
/// 2, 3 and 4 are told before that is looked at.
fn check_who_acts(before: &State, event: Event, answer: Answer) {
    let (Event::Suspend(task) | Event::Lock(task, _) | Event::Unlock(task, _)) = event else {
        return;
    };
    let number = answer.err().map(Refusal::number);
    if !matches!(number, Some(2..=4)) {
        let may_not = matches!(number, Some(61..=63));
        assert_eq!(before[task].runs.is_none(), may_not, "{event:?}");
    }
}

fn executor_by_rule_h(
    before: &State,
    event: Event,
    after: &State,
    task: TaskNumber,
) -> Option<ServerNumber> {
    let candidates: Vec<ServerNumber> = after
        .server_numbers()
        .filter(|&server| after[server].phase == Phase::Running)
        .filter(|&server| after.served_by(server) == task)
        .collect();
    let standing = |server: &ServerNumber| candidates.contains(server);
    if let Some(kept) = before[task].runs.filter(standing) {
        return Some(kept);
    }
    if let Event::Lock(acting, _) | Event::Unlock(acting, _) = event {
        if let Some(executor) = before[acting].runs.filter(standing) {
            return Some(executor);
        }
    }
    candidates
        .iter()
        .copied()
        .max_by_key(|&server| (after[server].budget, Reverse(server)))
}

fn check_single_executor(state: &State, task: TaskNumber) {
    let executors: Vec<ServerNumber> = state
        .server_numbers()
        .filter(|&server| state.executing(server) == Execution::Executes(task))
        .collect();
    assert!(executors.len() <= 1);
    assert_eq!(executors.first().copied(), state[task].runs);
}

/// No chain closes: each comes to a task that waits for nothing, without meeting a task twice.
fn check_chain_ends(state: &State, task: TaskNumber) {
    let mut met = vec![task];
    while let Some(owner) = state.next_in_chain(met[met.len() - 1]) {
        assert!(!met.contains(&owner));
        met.push(owner);
    }
    assert_eq!(met.last(), Some(&state.chain_end(task)));
}

fn check_unread_entries(before: &State, after: &State) {
    let tasks = usize::from(before.tasks);
    let resources = usize::from(before.resources);
    assert_eq!(before.task[tasks..], after.task[tasks..]);
    assert_eq!(before.server[tasks..], after.server[tasks..]);
    assert_eq!(before.resource[resources..], after.resource[resources..]);
}

fn executing_tasks(state: &State) -> u64 {
    let executing = state
        .task_numbers()
        .filter(|&task| state[task].runs.is_some());
    executing.count() as u64
}

fn total_own_and_lent(state: &State) -> u64 {
    let ticks = |server: ServerNumber| u64::from(state[server].own) + u64::from(state[server].lent);
    state.server_numbers().map(ticks).sum()
}

fn total_executed(state: &State) -> u64 {
    let ticks = |task: TaskNumber| u64::from(state[task].executed);
    state.task_numbers().map(ticks).sum()
}
