//! Program `measure`: single calls of either side, to be counted by callgrind. What one call costs is
//! the difference between a run with many calls and one with none, divided by their number.
//!
//! - `measure step SIDE TASKS EVENT TIMES`: the event, again and again from the same state, in which
//!   a chain runs through all tasks;
//! - `measure replay SIDE TASKS TIMES`: the listing of a trace of those tasks; prints its events;
//! - `measure bound SIDE TIMES`: the bound of a large table; prints its weighings.
//!
//! SIDE is `proved` or `second`; for a step also `plain`, the second program's step on a state that
//! is no bytes. Assumes 2 to 16 tasks.

use cross::sides::{Call, Layer, Proved, Second};
use second::generate::random::Random;
use second::generate::runs::Run;
use second::generate::sections::{good_question, Question};
use second::image::encode;
use second::library::{section_bytes, text_bytes, BOUND_BYTES};
use second::state::{fresh, Counts, ResourceNumber, ServerNumber, State, Table, TaskNumber};
use second::step::{step, step_sound, Event};
use std::hint::black_box;
use std::process::ExitCode;

const PROCESSORS: u16 = 8;
const QUOTA: u32 = 1_000;
const PERIOD: u32 = 5_000;
/// Questions looked at to find one with many weighings.
const QUESTIONS: usize = 3_000;

fn main() -> ExitCode {
    let words: Vec<String> = std::env::args().skip(1).collect();
    let words: Vec<&str> = words.iter().map(String::as_str).collect();
    match measured(&words) {
        Some(()) => ExitCode::SUCCESS,
        None => {
            eprintln!("usage: measure step|replay|bound proved|second .., see the source");
            ExitCode::FAILURE
        }
    }
}

fn measured(words: &[&str]) -> Option<()> {
    match words {
        ["step", "plain", tasks, event, times] => {
            let (state, event) = prepared(tasks.parse().ok()?, event)?;
            measure_plain(&state, event, times.parse().ok()?);
        }
        ["step", side, tasks, event, times] => {
            let (state, event) = prepared(tasks.parse().ok()?, event)?;
            measure_step(side_of(side)?, &encode(&state), event, times.parse().ok()?);
        }
        ["replay", side, tasks, times] => {
            let run = chain_run(tasks.parse().ok()?);
            println!("{} events", run.events.len());
            measure_replay(side_of(side)?, &run.trace(), times.parse().ok()?);
        }
        ["bound", side, times] => measure_bound(side_of(side)?, times.parse().ok()?),
        _ => return None,
    }
    Some(())
}

fn side_of(word: &str) -> Option<&'static dyn Layer> {
    match word {
        "proved" => Some(&Proved),
        "second" => Some(&Second),
        _ => None,
    }
}

fn measure_step(side: &dyn Layer, state: &[u8], event: Event, times: u32) {
    let call = Call::from(event);
    let mut lent = state.to_vec();
    println!("{:?}", side.step(&mut lent, call));
    for _ in 0..times {
        lent.copy_from_slice(state);
        black_box(side.step(black_box(&mut lent), call));
    }
}

fn measure_plain(state: &State, event: Event, times: u32) {
    let mut copy = *state;
    println!("{:?}", step(&mut copy, event));
    for _ in 0..times {
        copy = *state;
        let _ = black_box(step(black_box(&mut copy), event));
    }
}

fn measure_replay(side: &dyn Layer, trace: &[u8], times: u32) {
    let mut out = vec![0; text_bytes(trace.len())];
    for _ in 0..times {
        black_box(side.replay(black_box(trace), &mut out));
    }
}

fn measure_bound(side: &dyn Layer, times: u32) {
    let mut random = Random::new(1);
    let questions = (0..QUESTIONS).map(|_| good_question(&mut random));
    let weighings = |question: &Question| question.answer().map_or(0, |bound| bound.weighings);
    let Some(largest) = questions.max_by_key(weighings) else {
        return;
    };
    println!("{} weighings", weighings(&largest));
    let sections = section_bytes(&largest.table);
    let (task, allowance) = (largest.task.0, largest.allowance);
    let mut out = [0; BOUND_BYTES];
    for _ in 0..times {
        black_box(side.bound(black_box(&sections), task, allowance, &mut out));
    }
}

/// The events that lead to one chain: task 0 waits for 1, which waits for 2, and so on; as many
/// servers run as there are processors, the last task executes in its own.
fn chain_events(tasks: u16) -> Vec<Event> {
    let mut events = Vec::new();
    for number in 0..tasks {
        let own = ServerNumber(number);
        events.push(Event::Wake(TaskNumber(number)));
        events.push(Event::Dispatch(own));
        if number > 0 {
            events.push(Event::Lock(TaskNumber(number), ResourceNumber(number - 1)));
        }
        events.push(Event::Preempt(own));
    }
    for number in 0..tasks {
        let own = ServerNumber(number);
        events.push(Event::Dispatch(own));
        if number + 1 < tasks {
            events.push(Event::Lock(TaskNumber(number), ResourceNumber(number)));
            if number + PROCESSORS < tasks {
                events.push(Event::Preempt(own));
            }
        }
    }
    events
}

fn chain_table(tasks: u16) -> Table {
    let mut table = Table {
        counts: Counts {
            processors: PROCESSORS,
            tasks,
            resources: tasks,
        },
        ..Table::default()
    };
    for row in table.rows.iter_mut().take(usize::from(tasks)) {
        row.quota = QUOTA;
        row.period = PERIOD;
        row.declared = ((1u32 << tasks) - 1) as u16;
    }
    table
}

/// The chain is made, time passes, and it is taken apart again.
fn chain_run(tasks: u16) -> Run {
    let mut events = chain_events(tasks);
    events.extend([Event::Elapse(10); 4]);
    for number in (1..tasks).rev() {
        events.push(Event::Unlock(
            TaskNumber(number),
            ResourceNumber(number - 1),
        ));
        events.push(Event::Elapse(1));
    }
    Run {
        table: chain_table(tasks),
        events,
    }
}

fn reached(tasks: u16, events: &[Event]) -> State {
    let (mut state, _) = fresh(&chain_table(tasks));
    for &event in events {
        let _ = step_sound(&mut state, event);
    }
    state
}

/// The state from which an event is measured, and the event: it touches the whole chain.
fn prepared(tasks: u16, word: &str) -> Option<(State, Event)> {
    let end = TaskNumber(tasks - 1);
    let end_server = end.own_server();
    let mut events = chain_events(tasks);
    let last = ResourceNumber(tasks - 2);
    let event = match word {
        "wake" => {
            events.push(Event::Suspend(end));
            Event::Wake(end)
        }
        "suspend" => Event::Suspend(end),
        "dispatch" => {
            events.push(Event::Preempt(end_server));
            Event::Dispatch(end_server)
        }
        "preempt" => Event::Preempt(reached(tasks, &events)[end].runs?),
        "elapse" => Event::Elapse(1),
        "recharge" => {
            events.extend([Event::Elapse(QUOTA), Event::Elapse(PERIOD)]);
            // The first of those that ran out.
            Event::Recharge(ServerNumber(tasks.saturating_sub(PROCESSORS)))
        }
        "lock" => {
            // The last link is still to be made: all others wait for its task already.
            let before_last = TaskNumber(tasks - 2);
            events.retain(|&event| event != Event::Lock(before_last, last));
            Event::Lock(before_last, last)
        }
        "unlock" => Event::Unlock(end, last),
        _ => return None,
    };
    Some((reached(tasks, &events), event))
}
