//! A state as text, entry by entry: what people read where two states differ.
//!
//! Assumes nothing of the state.

use crate::state::{Mode, Phase, Resource, Server, State, Task};

pub fn counts_text(state: &State) -> String {
    format!(
        "clock {} processors {} tasks {} resources {}\n",
        state.clock, state.processors, state.tasks, state.resources
    )
}

pub fn server_text(server: &Server) -> String {
    format!(
        "{} budget {} deadline {} quota {} period {} own {} lent {} spin {}",
        phase_word(server.phase),
        server.budget,
        server.deadline,
        server.quota,
        server.period,
        server.own,
        server.lent,
        server.spin
    )
}

/// All sixteen places of the stack are shown, those given up too.
pub fn task_text(task: &Task) -> String {
    let place = match task.runs {
        None => "nowhere".to_string(),
        Some(server) => format!("in {}", server.0),
    };
    format!(
        "{} {place} declared {} executed {} holds {}:{}",
        mode_text(task.mode),
        task.declared,
        task.executed,
        task.depth,
        places(task.held.iter().map(|resource| resource.0))
    )
}

/// All sixteen places of the queue are shown, those given up too.
pub fn resource_text(resource: &Resource) -> String {
    let owner = match resource.owner {
        None => "free".to_string(),
        Some(task) => format!("owned by {}", task.0),
    };
    format!(
        "{owner} waiting {}:{}",
        resource.waiting,
        places(resource.queue.iter().map(|task| task.0))
    )
}

fn places(numbers: impl Iterator<Item = u16>) -> String {
    numbers.map(|number| format!(" {number}")).collect()
}

fn mode_text(mode: Mode) -> String {
    match mode {
        Mode::Suspended => "suspended".to_string(),
        Mode::Ready => "ready".to_string(),
        Mode::Waiting(resource) => format!("waiting for {}", resource.0),
    }
}

pub fn phase_word(phase: Phase) -> &'static str {
    match phase {
        Phase::Idle => "idle",
        Phase::Active => "active",
        Phase::Running => "running",
        Phase::Recharging => "recharging",
    }
}
