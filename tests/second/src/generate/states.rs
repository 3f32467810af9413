//! Given states: sound ones that no events from fresh need reach, and ones in which exactly one
//! clause of soundness is broken.
//!
//! Assumes nothing. Entries past the counts and places past the ends of stacks and queues are
//! filled with anything, as nobody may read them.

use super::random::Random;
use super::tables::{any_counts, good_table, Pace};
use crate::state::{
    fresh, Clause, Counts, Mode, Phase, Resource, ResourceNumber, Server, ServerNumber, State,
    Task, TaskNumber, CLOCK_LIMIT, PROCESSOR_LIMIT, RESOURCE_LIMIT, TASK_LIMIT, TICK_LIMIT,
};

/// Far more than it ever took to find a state that breaks one clause.
const ATTEMPTS: u32 = 1_000_000;

/// How resources are held and awaited in a state that is made up.
#[derive(Clone, Copy, Debug, PartialEq, Eq)]
enum Shape {
    Scattered,
    /// One chain through any of the tasks.
    Chained,
    /// One task holds all.
    Hoarded,
}

/// A sound state, made up field by field.
pub fn sound_state(random: &mut Random) -> State {
    let counts = any_counts(random);
    let shape = match random.index(12) {
        0 => Shape::Hoarded,
        1..=3 => Shape::Chained,
        _ => Shape::Scattered,
    };
    shaped_state(random, counts, shape)
}

fn shaped_state(random: &mut Random, counts: Counts, shape: Shape) -> State {
    let pace = Pace::any(random);
    let table = good_table(random, counts, pace, shape != Shape::Scattered);
    let (mut state, _) = fresh(&table);
    state.clock = match random.index(4) {
        0 => random.between(0, 30),
        1 => CLOCK_LIMIT - random.between(0, 30),
        _ => random.between(0, CLOCK_LIMIT),
    };
    match shape {
        Shape::Scattered => (),
        Shape::Chained => make_one_chain(random, &mut state),
        Shape::Hoarded => {
            let owner = TaskNumber(random.number(0, counts.tasks - 1));
            give_all(&mut state, owner);
        }
    }
    hand_out_resources(random, &mut state);
    let waiting_once_in = u64::from(random.between(1, 4));
    make_tasks_wait(random, &mut state, waiting_once_in);
    choose_phases(random, &mut state);
    choose_executors(random, &mut state);
    choose_accounts(random, &mut state);
    fill_unread_places(random, &mut state);
    state
}

fn give_all(state: &mut State, owner: TaskNumber) {
    for resource in state.resource_numbers() {
        state[resource].owner = Some(owner);
        state[owner].push(resource);
    }
}

/// A chain, often through all tasks; each may lock what it likes.
fn make_one_chain(random: &mut Random, state: &mut State) {
    let mut tasks: Vec<TaskNumber> = state.task_numbers().collect();
    let mut resources: Vec<ResourceNumber> = state.resource_numbers().collect();
    random.shuffle(&mut tasks);
    random.shuffle(&mut resources);
    if random.one_in(2) {
        resources.truncate(random.index(TASK_LIMIT));
    }
    for (pair, &resource) in tasks.windows(2).zip(&resources) {
        let (waiter, owner) = (pair[0], pair[1]);
        state[resource].owner = Some(owner);
        state[owner].push(resource);
        state[resource].join(waiter);
        state[waiter].mode = Mode::Waiting(resource);
    }
}

/// Gives those that are left to tasks that may lock them.
fn hand_out_resources(random: &mut Random, state: &mut State) {
    for resource in state.resource_numbers() {
        let may_own: Vec<TaskNumber> = state
            .task_numbers()
            .filter(|&task| state[task].declares(resource))
            .collect();
        if random.one_in(4) || state[resource].owner.is_some() {
            continue;
        }
        if let Some(owner) = random.pick(&may_own) {
            state[resource].owner = Some(owner);
            state[owner].push(resource);
        }
    }
    for task in state.task_numbers() {
        let depth = state[task].stack().len();
        random.shuffle(&mut state[task].held[..depth]);
    }
}

/// Lets tasks that don't wait yet do so in any order; the modes of the others are chosen too.
fn make_tasks_wait(random: &mut Random, state: &mut State, once_in: u64) {
    let mut tasks: Vec<TaskNumber> = state
        .task_numbers()
        .filter(|&task| state[task].mode == Mode::Suspended)
        .collect();
    random.shuffle(&mut tasks);
    for task in tasks {
        state[task].mode = if random.one_in(3) {
            Mode::Suspended
        } else {
            Mode::Ready
        };
        let may_await: Vec<ResourceNumber> = state
            .resource_numbers()
            .filter(|&resource| state[task].declares(resource))
            .filter(|&resource| {
                let owner = state[resource].owner;
                owner.is_some_and(|owner| state.chain_end(owner) != task)
            })
            .collect();
        if let (true, Some(resource)) = (random.one_in(once_in), random.pick(&may_await)) {
            state[resource].join(task);
            state[task].mode = Mode::Waiting(resource);
        }
    }
}

fn choose_phases(random: &mut Random, state: &mut State) {
    let mut servers: Vec<ServerNumber> = state.server_numbers().collect();
    random.shuffle(&mut servers);
    let even_budget = random.one_in(3);
    for server in servers {
        let sleeps = state[state.served_by(server)].mode == Mode::Suspended;
        let processor_free = state.running_count() < usize::from(state.processors);
        let quota = state[server].quota;
        let latest = state.clock + state[server].period;
        let phase = match (sleeps, random.index(5)) {
            (_, 0) => Phase::Recharging,
            (true, _) => Phase::Idle,
            (false, 1) => Phase::Active,
            (false, _) if processor_free => Phase::Running,
            (false, _) => Phase::Active,
        };
        state[server].phase = phase;
        state[server].budget = match phase {
            Phase::Recharging => 0,
            _ if even_budget => quota.min(3),
            _ => random.between(1, quota),
        };
        state[server].deadline = match random.index(3) {
            0 => latest,
            1 => latest - random.between(0, state[server].period),
            _ => random.between(0, latest),
        };
    }
}

/// Any of the Running servers that serve a task may execute it, whatever their budgets.
fn choose_executors(random: &mut Random, state: &mut State) {
    for task in state.task_numbers() {
        let candidates: Vec<ServerNumber> = state
            .server_numbers()
            .filter(|&server| state[server].phase == Phase::Running)
            .filter(|&server| state.served_by(server) == task)
            .collect();
        state[task].runs = random.pick(&candidates);
    }
}

/// Accounts up to the clock, and often just at it.
fn choose_accounts(random: &mut Random, state: &mut State) {
    let clock = state.clock;
    for server in state.server_numbers() {
        let own = random.between(0, clock);
        let lent = random.between(0, clock - own);
        let left = clock - own - lent;
        let full = random.one_in(3);
        state[server].own = own;
        state[server].lent = lent;
        state[server].spin = if full { left } else { random.between(0, left) };
    }
    for task in state.task_numbers() {
        let full = random.one_in(3);
        state[task].executed = if full {
            clock
        } else {
            random.between(0, clock)
        };
    }
}

/// Any number, often one near the limits.
fn stray_number(random: &mut Random) -> u16 {
    if random.one_in(2) {
        random.number(0, TASK_LIMIT as u16 + 1)
    } else {
        random.number(0, u16::MAX)
    }
}

fn stray_task(random: &mut Random) -> Task {
    Task {
        mode: Mode::Waiting(ResourceNumber(stray_number(random))),
        runs: Some(ServerNumber(stray_number(random))),
        declared: random.draw() as u16,
        executed: random.draw() as u32,
        depth: stray_number(random),
        held: [ResourceNumber(stray_number(random)); RESOURCE_LIMIT],
    }
}

fn stray_server(random: &mut Random) -> Server {
    let mut any = || random.draw() as u32;
    Server {
        phase: Phase::Running,
        budget: any(),
        deadline: any(),
        quota: any(),
        period: any(),
        own: any(),
        lent: any(),
        spin: any(),
    }
}

fn stray_resource(random: &mut Random) -> Resource {
    Resource {
        owner: Some(TaskNumber(stray_number(random))),
        waiting: stray_number(random),
        queue: [TaskNumber(stray_number(random)); TASK_LIMIT],
    }
}

fn fill_unread_places(random: &mut Random, state: &mut State) {
    let (tasks, resources) = (usize::from(state.tasks), usize::from(state.resources));
    state.task[tasks..].fill_with(|| stray_task(random));
    state.server[tasks..].fill_with(|| stray_server(random));
    state.resource[resources..].fill_with(|| stray_resource(random));
    for task in &mut state.task[..tasks] {
        let depth = task.stack().len();
        task.held[depth..].fill_with(|| ResourceNumber(stray_number(random)));
    }
    for resource in &mut state.resource[..resources] {
        let waiting = resource.waiters().len();
        resource.queue[waiting..].fill_with(|| TaskNumber(stray_number(random)));
    }
}

/// A sound state with some of its fields changed to others that keep it sound.
pub fn perturbed_state(random: &mut Random, state: &State) -> State {
    let mut kept = *state;
    for _ in 0..random.between(1, 8) {
        let mut tried = kept;
        perturb(random, &mut tried);
        if tried.is_sound() {
            kept = tried;
        }
    }
    kept
}

fn perturb(random: &mut Random, state: &mut State) {
    let server = ServerNumber(random.number(0, state.tasks - 1));
    let task = TaskNumber(random.number(0, state.tasks - 1));
    match random.index(8) {
        0 => state[server].budget = random.between(0, state[server].quota),
        1 => state[server].deadline = random.between(0, state.clock + state[server].period),
        2 => state.clock = random.between(0, CLOCK_LIMIT),
        3 => state[task].runs = Some(server),
        4 => {
            let depth = state[task].stack().len();
            random.shuffle(&mut state[task].held[..depth]);
        }
        5 => {
            let resource = &mut state.resource[random.index(RESOURCE_LIMIT)];
            let waiting = resource.waiters().len();
            random.shuffle(&mut resource.queue[..waiting]);
        }
        6 => state.processors = random.number(1, PROCESSOR_LIMIT as u16),
        _ => choose_accounts(random, state),
    }
}

/// A state in which a task waits for anything and a resource is anyone's, whatever that breaks:
/// chains may close or leave the counts while servers on them run.
pub fn tangled_state(random: &mut Random) -> State {
    let mut state = sound_state(random);
    for _ in 0..random.between(1, 3) {
        let resource = ResourceNumber(random.number(0, RESOURCE_LIMIT as u16 - 1));
        let task = TaskNumber(random.number(0, state.tasks - 1));
        match random.index(3) {
            0 => state[resource].owner = Some(TaskNumber(stray_number(random))),
            1 => state[resource].owner = Some(task),
            _ => state[task].mode = Mode::Waiting(resource),
        }
    }
    state
}

/// A state that breaks this clause and no other.
pub fn broken_state(random: &mut Random, clause: Clause) -> State {
    for _ in 0..ATTEMPTS {
        let mut state = sound_state(random);
        break_clause(random, &mut state, clause);
        if state.broken_clauses() == [clause] {
            return state;
        }
    }
    panic!("no state found that breaks {clause:?} alone");
}

/// Changes what the clause speaks of; other clauses may break too, and then it is tried again.
fn break_clause(random: &mut Random, state: &mut State, clause: Clause) {
    let server = ServerNumber(random.number(0, state.tasks - 1));
    let past_clock = ticks_above(random, state.clock);
    match clause {
        Clause::ProcessorsInRange => {
            state.processors = number_past(random, PROCESSOR_LIMIT);
        }
        Clause::TasksInRange => break_task_count(random, state),
        Clause::ResourcesInRange => {
            state.resources = number_above(random, RESOURCE_LIMIT as u16);
        }
        Clause::ClockInRange => state.clock = ticks_above(random, CLOCK_LIMIT),
        Clause::ReservationsInRange => break_reservation(random, state, server),
        Clause::DeadlinesWithinPeriod => {
            state[server].deadline = ticks_above(random, state.clock + state[server].period);
        }
        Clause::BudgetsWithinQuota => {
            state[server].budget = ticks_above(random, state[server].quota);
        }
        Clause::EmptyExactlyWhenRecharging => match state[server].phase {
            Phase::Recharging => state[server].budget = random.between(1, state[server].quota),
            _ => state[server].budget = 0,
        },
        Clause::ProcessorsSuffice => state.processors = state.processors.saturating_sub(1),
        Clause::IdleExactlyWhenServedSleeps => {
            let phases = [Phase::Idle, Phase::Active];
            state[server].phase = phases[random.index(phases.len())];
        }
        Clause::AccountsWithinClock => state[server.own_task()].executed = past_clock,
        Clause::ServerTotalsWithinClock => break_total(random, state, server),
        _ => break_task_clause(random, state, clause),
    }
}

/// A number above the limit, often just above it.
fn number_above(random: &mut Random, limit: u16) -> u16 {
    if random.one_in(2) {
        limit + 1
    } else {
        random.number(limit + 1, u16::MAX)
    }
}

fn ticks_above(random: &mut Random, limit: u32) -> u32 {
    if random.one_in(2) {
        limit + 1
    } else {
        random.between(limit + 1, u32::MAX)
    }
}

/// 0, or a number above the limit.
fn number_past(random: &mut Random, limit: usize) -> u16 {
    if random.one_in(2) {
        0
    } else {
        number_above(random, limit as u16)
    }
}

/// No tasks, or more than the sixteen that are all read then.
fn break_task_count(random: &mut Random, state: &mut State) {
    if random.one_in(2) {
        let counts = Counts {
            tasks: TASK_LIMIT as u16,
            ..any_counts(random)
        };
        *state = shaped_state(random, counts, Shape::Scattered);
        state.tasks = number_above(random, TASK_LIMIT as u16);
    } else {
        state.tasks = 0;
        for resource in &mut state.resource {
            resource.owner = None;
            resource.waiting = 0;
        }
    }
}

fn break_reservation(random: &mut Random, state: &mut State, server: ServerNumber) {
    let server = &mut state[server];
    match random.index(3) {
        0 => server.period = ticks_above(random, TICK_LIMIT),
        1 => server.period = server.quota - 1,
        _ => {
            server.quota = 0;
            server.budget = 0;
        }
    }
}

/// Each account within the clock; all three together may pass 32 bits.
fn break_total(random: &mut Random, state: &mut State, server: ServerNumber) {
    let clock = state.clock;
    let server = &mut state[server];
    let accounts = [&mut server.own, &mut server.lent, &mut server.spin];
    let changed = random.between(1, accounts.len() as u32) as usize;
    for account in accounts.into_iter().take(changed) {
        *account = clock;
    }
}

/// The clauses on stacks, queues, chains and executors.
fn break_task_clause(random: &mut Random, state: &mut State, clause: Clause) {
    let task = TaskNumber(random.number(0, state.tasks - 1));
    let stray = stray_number(random);
    let near = random.number(0, TASK_LIMIT as u16);
    match clause {
        Clause::DeclaredSetsInRange => state[task].declared |= random.draw() as u16,
        Clause::StacksAgreeWithOwners => break_stack(random, state, task),
        Clause::QueuesAgreeWithWaits => break_queue(random, state),
        Clause::UnownedHaveNoQueue => orphan_queue(state, ResourceNumber(near)),
        Clause::HeldAreDeclared | Clause::AwaitedAreDeclared => {
            state[task].declared &= random.draw() as u16;
        }
        Clause::NoChainCloses => close_chain(random, state, task),
        Clause::ServedByRunningExecutes => state[task].runs = None,
        _ => {
            let serving = state.server_numbers();
            let serving = serving.filter(|&server| state.served_by(server) == task);
            let serving: Vec<ServerNumber> = serving.collect();
            state[task].runs = match random.index(4) {
                0 => Some(ServerNumber(stray)),
                1 => Some(ServerNumber(near)),
                // They may be of any phase.
                _ => random.pick(&serving),
            };
        }
    }
}

fn break_stack(random: &mut Random, state: &mut State, task: TaskNumber) {
    let resource = ResourceNumber(stray_number(random));
    match random.index(5) {
        0 => state[task].held[0] = resource,
        1 => state[task].depth = stray_number(random),
        2 if usize::from(state[task].depth) < RESOURCE_LIMIT => {
            let again = state[task].held[0];
            state[task].push(again);
        }
        3 => *state = overfull_stack(random),
        _ => {
            let owned = &mut state.resource[random.index(RESOURCE_LIMIT)];
            owned.owner = Some(TaskNumber(stray_number(random)));
        }
    }
}

/// One task holds all sixteen resources, and its stack is said to be longer still.
fn overfull_stack(random: &mut Random) -> State {
    let counts = Counts {
        resources: RESOURCE_LIMIT as u16,
        ..any_counts(random)
    };
    let mut state = shaped_state(random, counts, Shape::Hoarded);
    let depth = number_above(random, RESOURCE_LIMIT as u16);
    for task in state.task_numbers() {
        if state[task].stack().len() == RESOURCE_LIMIT {
            state[task].depth = depth;
        }
    }
    state
}

fn break_queue(random: &mut Random, state: &mut State) {
    let stray = TaskNumber(random.number(0, TASK_LIMIT as u16));
    let resource = &mut state.resource[random.index(RESOURCE_LIMIT)];
    match random.index(4) {
        0 => resource.queue[0] = stray,
        1 => resource.waiting = stray_number(random),
        2 if usize::from(resource.waiting) < TASK_LIMIT => resource.join(stray),
        _ => {
            let task = &mut state.task[random.index(TASK_LIMIT)];
            task.mode = Mode::Waiting(ResourceNumber(stray.0));
        }
    }
}

/// Takes a resource with waiters from its owner.
fn orphan_queue(state: &mut State, resource: ResourceNumber) {
    if !state.has_resource(resource) {
        return;
    }
    if let Some(owner) = state[resource].owner.take() {
        let kept: Vec<ResourceNumber> = state[owner].stack().to_vec();
        state[owner].depth = 0;
        for held in kept.into_iter().filter(|&held| held != resource) {
            state[owner].push(held);
        }
    }
}

/// Lets the end of the task's chain wait for what a task on the chain holds, or for its own. The
/// servers that served the end now serve a waiting task, which is not suspended.
fn close_chain(random: &mut Random, state: &mut State, task: TaskNumber) {
    let end = state.chain_end(task);
    let on_chain = if random.one_in(3) { end } else { task };
    let Some(resource) = random.pick(state[on_chain].stack()) else {
        return;
    };
    for server in state.server_numbers() {
        let serves = state.served_by(server) == end;
        if serves && state[server].phase != Phase::Recharging {
            state[server].phase = Phase::Active;
        }
    }
    state[end].declared |= 1 << resource.0;
    state[end].mode = Mode::Waiting(resource);
    state[end].runs = None;
    state[resource].join(end);
}
