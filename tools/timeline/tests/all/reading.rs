//! Records, states and lines: each held to another reader of the same bytes.

use super::{all, seeded};
use second::image::decode;
use second::state as other;
use timeline::records::{records, Record};
use timeline::run::Run;
use timeline::snapshot::{Mode, Phase, Snapshot};
use timeline::words;
use vesztamor::{Answer, State};

/// As `trace dis` writes a trace, up to the first record that is none of the table's kinds.
fn lines(trace: &[u8]) -> Vec<String> {
    let text = trace::disassemble::disassemble(trace, false);
    let known = |line: &&str| !line.starts_with("record ") && !line.starts_with("raw ");
    text.lines().take_while(known).map(str::to_string).collect()
}

#[test]
fn records_are_those_that_the_text_tool_reads() {
    for (name, trace) in all(300) {
        let expected = lines(&trace);
        let found = records(&trace);
        assert_eq!(found.len(), expected.len(), "{name}");
        for (record, line) in found.iter().zip(&expected) {
            match record {
                Record::Event(event) => assert_eq!(&words::event(*event), line, "{name}"),
                Record::Table(body) if body.len() == 6 => {
                    assert!(line.starts_with("machine "), "{name}")
                }
                Record::Table(_) => assert!(line.starts_with("task "), "{name}"),
            }
        }
    }
}

#[test]
fn lines_are_those_of_the_listing() {
    for (name, trace) in all(300) {
        let run = Run::of(&trace);
        assert_eq!(
            run.listing.as_bytes(),
            second::replay::replay(&trace),
            "{name}"
        );
        let listed = run
            .listing
            .lines()
            .take_while(|line| line.starts_with(|c: char| c.is_ascii_digit()));
        let told: Vec<String> = run.moments.iter().map(words::line).collect();
        assert_eq!(told, listed.collect::<Vec<&str>>(), "{name}");
        let stopped = run
            .listing
            .lines()
            .last()
            .is_some_and(|line| line.starts_with("stop "));
        assert_eq!(run.stop.is_some(), stopped, "{name}");
    }
}

fn server_agrees(state: &other::State, snapshot: &Snapshot, number: usize) -> bool {
    let (server, other) = (&snapshot.servers[number], &state.server[number]);
    let phase = match server.phase {
        Phase::Idle => other::Phase::Idle,
        Phase::Active => other::Phase::Active,
        Phase::Running => other::Phase::Running,
        Phase::Recharging => other::Phase::Recharging,
    };
    let doing = match state.executing(other::ServerNumber(number as u16)) {
        other::Execution::Executes(task) => Answer::Executes(task.0.into()),
        other::Execution::Spins(task) => Answer::Spins(task.0.into()),
        _ => Answer::Ok(0),
    };
    (phase, doing) == (other.phase, server.doing)
        && (server.budget, server.deadline) == (other.budget, other.deadline)
        && (server.quota, server.period) == (other.quota, other.period)
        && (server.own, server.lent, server.spin) == (other.own, other.lent, other.spin)
}

fn task_agrees(state: &other::State, snapshot: &Snapshot, number: usize) -> bool {
    let (task, other) = (&snapshot.tasks[number], &state.task[number]);
    let mode = match task.mode {
        Mode::Suspended => other::Mode::Suspended,
        Mode::Ready => other::Mode::Ready,
        Mode::Waiting(resource) => other::Mode::Waiting(other::ResourceNumber(resource)),
    };
    let held: Vec<u16> = other.stack().iter().map(|resource| resource.0).collect();
    mode == other.mode
        && task.executor == other.runs.map(|server| server.0)
        && (task.declared, task.executed) == (other.declared, other.executed)
        && task.held == held
}

fn resource_agrees(state: &other::State, snapshot: &Snapshot, number: usize) -> bool {
    let (resource, other) = (&snapshot.resources[number], &state.resource[number]);
    let queue: Vec<u16> = other.waiters().iter().map(|task| task.0).collect();
    resource.owner == other.owner.map(|task| task.0) && resource.queue == queue
}

fn counts_agree(state: &other::State, snapshot: &Snapshot) -> bool {
    (snapshot.processors, snapshot.clock) == (state.processors, state.clock)
        && snapshot.servers.len() == usize::from(state.tasks)
        && snapshot.tasks.len() == usize::from(state.tasks)
        && snapshot.resources.len() == usize::from(state.resources)
}

/// The fresh state of a trace's table.
fn fresh(records: &[Record]) -> Option<State> {
    let bodies = records.iter().map(|record| match record {
        Record::Table(body) => body,
        Record::Event(_) => &[][..],
    });
    let table: Vec<u8> = bodies.flatten().copied().collect();
    State::fresh(&table).ok()
}

#[test]
fn states_are_those_that_the_second_program_reads() {
    let mut seen = 0;
    for (name, trace) in seeded(60) {
        let records = records(&trace);
        let Some(mut state) = fresh(&records) else {
            continue;
        };
        for record in &records {
            if let Record::Event(event) = *record {
                state.step(event);
                let (snapshot, other) = (Snapshot::of(&state), decode(&state.bytes).unwrap());
                let (tasks, resources) = (snapshot.tasks.len(), snapshot.resources.len());
                let agrees = counts_agree(&other, &snapshot)
                    && (0..tasks).all(|n| server_agrees(&other, &snapshot, n))
                    && (0..tasks).all(|n| task_agrees(&other, &snapshot, n))
                    && (0..resources).all(|n| resource_agrees(&other, &snapshot, n));
                assert!(agrees, "{name}: {event:?}");
                seen += 1;
            }
        }
    }
    assert!(seen > 5_000, "only {seen} states");
}
