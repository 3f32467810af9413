//! The eight events (rules 7.1 to 7.10), their refusals in order (rules 10.1 to 10.3), rule H
//! (rules 6.1 to 6.3) and the accounts (rule 8.1).
//!
//! `step` assumes nothing of the state and refuses one that isn't sound. `step_sound` is for a
//! caller who knows that the state is sound, as it came from `fresh` by steps alone. Both change
//! the state in place, and a refused event leaves it as it was.

use crate::refusal::{require, Refusal};
use crate::state::{
    Execution, Mode, Phase, ResourceNumber, ServerNumber, State, TaskNumber, CLOCK_LIMIT,
    TASK_LIMIT, TICK_LIMIT,
};

#[derive(Clone, Copy, Debug, PartialEq, Eq)]
pub enum Event {
    Wake(TaskNumber),
    Suspend(TaskNumber),
    Dispatch(ServerNumber),
    Preempt(ServerNumber),
    Elapse(u32),
    Recharge(ServerNumber),
    Lock(TaskNumber, ResourceNumber),
    Unlock(TaskNumber, ResourceNumber),
}

/// The answer to an event that was carried out: a word and a number.
#[derive(Clone, Copy, Debug, PartialEq, Eq)]
pub enum Outcome {
    Ok(u32),
    Executes(TaskNumber),
    Spins(TaskNumber),
    Granted(ResourceNumber),
    Waits(TaskNumber),
    Passed(TaskNumber),
    Freed(ResourceNumber),
}

impl Outcome {
    pub fn word(self) -> &'static str {
        match self {
            Outcome::Ok(_) => "ok",
            Outcome::Executes(_) => "executes",
            Outcome::Spins(_) => "spins",
            Outcome::Granted(_) => "granted",
            Outcome::Waits(_) => "waits",
            Outcome::Passed(_) => "passed",
            Outcome::Freed(_) => "freed",
        }
    }

    pub fn number(self) -> u32 {
        match self {
            Outcome::Ok(number) => number,
            Outcome::Executes(task)
            | Outcome::Spins(task)
            | Outcome::Waits(task)
            | Outcome::Passed(task) => u32::from(task.0),
            Outcome::Granted(resource) | Outcome::Freed(resource) => u32::from(resource.0),
        }
    }
}

pub type Answer = Result<Outcome, Refusal>;

/// Carries out one event on any state; one that isn't sound is refused with 1.
pub fn step(state: &mut State, event: Event) -> Answer {
    require(state.is_sound(), Refusal::StateNotSound)?;
    step_sound(state, event)
}

/// The same for a state known to be sound, without the test.
pub fn step_sound(state: &mut State, event: Event) -> Answer {
    debug_assert!(state.is_sound());
    match event {
        Event::Wake(task) => wake(state, task),
        Event::Suspend(task) => suspend(state, task),
        Event::Dispatch(server) => dispatch(state, server),
        Event::Preempt(server) => preempt(state, server),
        Event::Elapse(ticks) => elapse(state, ticks),
        Event::Recharge(server) => recharge(state, server),
        Event::Lock(task, resource) => lock(state, task, resource),
        Event::Unlock(task, resource) => unlock(state, task, resource),
    }
}

/// No task changes hands here: whoever serves a suspended task isn't Running.
fn wake(state: &mut State, task: TaskNumber) -> Answer {
    require(state.has_task(task), Refusal::NoSuchTaskOrServer)?;
    let suspended = state[task].mode == Mode::Suspended;
    require(suspended, Refusal::TaskNotSuspended)?;
    state[task].mode = Mode::Ready;
    let mut woken = 0;
    for server in state.server_numbers() {
        if state[server].phase == Phase::Idle && state.served_by(server) == task {
            refill(state, server);
            state[server].phase = Phase::Active;
            woken += 1;
        }
    }
    Ok(Outcome::Ok(woken))
}

fn suspend(state: &mut State, task: TaskNumber) -> Answer {
    require(state.has_task(task), Refusal::NoSuchTaskOrServer)?;
    may_act(state, task)?;
    state[task].mode = Mode::Suspended;
    state[task].runs = None;
    Ok(Outcome::Ok(idle_servers_of(state, task)))
}

fn dispatch(state: &mut State, server: ServerNumber) -> Answer {
    require(state.has_server(server), Refusal::NoSuchTaskOrServer)?;
    let active = state[server].phase == Phase::Active;
    require(active, Refusal::ServerNotActive)?;
    let processor_free = state.running_count() < usize::from(state.processors);
    require(processor_free, Refusal::NoProcessorFree)?;
    state[server].phase = Phase::Running;
    settle(state, None);
    let task = state.served_by(server);
    if state[task].runs == Some(server) {
        Ok(Outcome::Executes(task))
    } else {
        Ok(Outcome::Spins(task))
    }
}

fn preempt(state: &mut State, server: ServerNumber) -> Answer {
    require(state.has_server(server), Refusal::NoSuchTaskOrServer)?;
    let before = state.executing(server);
    let running = before != Execution::NotRunning;
    require(running, Refusal::ServerNotRunning)?;
    state[server].phase = Phase::Active;
    settle(state, None);
    let passed = match before {
        Execution::Executes(task) => state[task].runs.is_some(),
        Execution::Spins(_) | Execution::NotRunning => false,
    };
    Ok(Outcome::Ok(u32::from(passed)))
}

fn elapse(state: &mut State, ticks: u32) -> Answer {
    let in_range = (1..=TICK_LIMIT).contains(&ticks);
    require(in_range, Refusal::TicksOutOfRange)?;
    let within_limit = state.clock + ticks <= CLOCK_LIMIT;
    require(within_limit, Refusal::ClockPastLimit)?;
    let affordable = state
        .server_numbers()
        .all(|server| state[server].phase != Phase::Running || ticks <= state[server].budget);
    require(affordable, Refusal::TicksAboveBudget)?;
    state.clock += ticks;
    let mut exhausted = 0;
    for server in state.server_numbers() {
        // The accounts go by who executed at the start, so rule H waits for the loop's end.
        spend(state, server, ticks);
        if state[server].phase == Phase::Running && state[server].budget == 0 {
            state[server].phase = Phase::Recharging;
            exhausted += 1;
        }
    }
    if exhausted > 0 {
        settle(state, None);
    }
    Ok(Outcome::Ok(exhausted))
}

fn recharge(state: &mut State, server: ServerNumber) -> Answer {
    require(state.has_server(server), Refusal::NoSuchTaskOrServer)?;
    let recharging = state[server].phase == Phase::Recharging;
    require(recharging, Refusal::ServerNotRecharging)?;
    let due = state.clock >= state[server].deadline;
    require(due, Refusal::ClockBeforeDeadline)?;
    refill(state, server);
    let task = state.served_by(server);
    if state[task].mode == Mode::Suspended {
        state[server].phase = Phase::Idle;
        Ok(Outcome::Ok(0))
    } else {
        state[server].phase = Phase::Active;
        Ok(Outcome::Ok(1))
    }
}

fn lock(state: &mut State, task: TaskNumber, resource: ResourceNumber) -> Answer {
    require(state.has_task(task), Refusal::NoSuchTaskOrServer)?;
    require(state.has_resource(resource), Refusal::NoSuchResource)?;
    let declared = state[task].declares(resource);
    require(declared, Refusal::ResourceNotDeclared)?;
    may_act(state, task)?;
    let executor = state[task].runs;
    let Some(owner) = state[resource].owner else {
        state[resource].owner = Some(task);
        state[task].push(resource);
        return Ok(Outcome::Granted(resource));
    };
    require(owner != task, Refusal::AlreadyHeld)?;
    let end = state.chain_end(owner);
    require(end != task, Refusal::ChainWouldClose)?;
    state[resource].join(task);
    state[task].mode = Mode::Waiting(resource);
    if state[end].mode == Mode::Suspended {
        idle_servers_of(state, end);
    }
    settle(state, executor);
    Ok(Outcome::Waits(end))
}

/// Refusal 4 is not tested: what nobody may lock, nobody owns (rule 10.3).
fn unlock(state: &mut State, task: TaskNumber, resource: ResourceNumber) -> Answer {
    require(state.has_task(task), Refusal::NoSuchTaskOrServer)?;
    require(state.has_resource(resource), Refusal::NoSuchResource)?;
    may_act(state, task)?;
    let executor = state[task].runs;
    let owned = state[resource].owner == Some(task);
    require(owned, Refusal::NotOwned)?;
    let on_top = state[task].stack().last() == Some(&resource);
    require(on_top, Refusal::NotTopOfStack)?;
    state[task].pop();
    let next = state[resource].take_first();
    state[resource].owner = next;
    let Some(next) = next else {
        return Ok(Outcome::Freed(resource));
    };
    state[next].mode = Mode::Ready;
    state[next].push(resource);
    settle(state, executor);
    Ok(Outcome::Passed(next))
}

/// What a task needs to act: it doesn't sleep (61), it doesn't wait (62, and the resource that it
/// awaits itself, wherever its chain leads), and some Running server serves it (63).
fn may_act(state: &State, task: TaskNumber) -> Result<(), Refusal> {
    match state[task].mode {
        Mode::Suspended => return Err(Refusal::TaskSuspended),
        Mode::Waiting(awaited) => return Err(Refusal::TaskWaiting(awaited)),
        Mode::Ready => (),
    }
    let served = state
        .server_numbers()
        .any(|server| state[server].phase == Phase::Running && state.served_by(server) == task);
    require(served, Refusal::TaskNotServed)
}

/// Budget Q and deadline clock + P.
fn refill(state: &mut State, server: ServerNumber) {
    let clock = state.clock;
    let server = &mut state[server];
    server.budget = server.quota;
    server.deadline = clock + server.period;
}

/// Makes the Active and Running servers that serve the task Idle, and counts them.
fn idle_servers_of(state: &mut State, task: TaskNumber) -> u32 {
    let mut count = 0;
    for server in state.server_numbers() {
        let awake = matches!(state[server].phase, Phase::Active | Phase::Running);
        if awake && state.served_by(server) == task {
            state[server].phase = Phase::Idle;
            count += 1;
        }
    }
    count
}

/// Takes the ticks from a Running server's budget and enters them in the accounts.
fn spend(state: &mut State, server: ServerNumber, ticks: u32) {
    match state.executing(server) {
        Execution::NotRunning => return,
        Execution::Spins(_) => state[server].spin += ticks,
        Execution::Executes(task) => {
            if task == server.own_task() {
                state[server].own += ticks;
            } else {
                state[server].lent += ticks;
            }
            state[task].executed += ticks;
        }
    }
    state[server].budget -= ticks;
}

/// Rule H. `executor` is the server that executed the acting task before a lock or unlock.
///
/// Of the Running servers that serve a task, the best by this order executes it: 1. the one that
/// executed it before; 2. the acting task's executor; 3. the most remaining budget; 4. the lowest
/// number, which comes first and is replaced only by a better one.
fn settle(state: &mut State, executor: Option<ServerNumber>) {
    let mut chosen: [Option<ServerNumber>; TASK_LIMIT] = [None; TASK_LIMIT];
    for server in state.server_numbers() {
        if state[server].phase != Phase::Running {
            continue;
        }
        let task = state.served_by(server);
        let rank = |candidate: ServerNumber| {
            let kept = state[task].runs == Some(candidate);
            let acting = executor == Some(candidate);
            (kept, acting, state[candidate].budget)
        };
        let best = &mut chosen[task.index()];
        if best.is_none_or(|other| rank(server) > rank(other)) {
            *best = Some(server);
        }
    }
    for task in state.task_numbers() {
        state[task].runs = chosen[task.index()];
    }
}
