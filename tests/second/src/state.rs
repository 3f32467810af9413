//! The state of one machine (rules 1.1 to 1.7 and 2.1 to 2.6), its chains (rules 3.1 to 3.4), and
//! `fresh` (rules 5.1 to 5.5).
//!
//! Assumes nothing of a given state: counts may be out of range and arrays may hold anything, and
//! every function here still answers. Entries from the count on are not in use (rule 1.7).

mod soundness;

use crate::refusal::{require, Refusal};
use std::ops::{Index, IndexMut};

pub use soundness::Clause;

pub const PROCESSOR_LIMIT: usize = 8;
pub const TASK_LIMIT: usize = 16;
pub const RESOURCE_LIMIT: usize = 16;
/// The largest Q and P, and the most ticks that one elapse may take.
pub const TICK_LIMIT: u32 = 1_000_000;
pub const CLOCK_LIMIT: u32 = 4_000_000_000;

/// The number of a task. It is kept apart from the number of that task's own server.
#[derive(Clone, Copy, Debug, Default, PartialEq, Eq, PartialOrd, Ord, Hash)]
pub struct TaskNumber(pub u16);

/// The number of a server.
#[derive(Clone, Copy, Debug, Default, PartialEq, Eq, PartialOrd, Ord, Hash)]
pub struct ServerNumber(pub u16);

/// The number of a resource.
#[derive(Clone, Copy, Debug, Default, PartialEq, Eq, PartialOrd, Ord, Hash)]
pub struct ResourceNumber(pub u16);

impl TaskNumber {
    pub fn index(self) -> usize {
        usize::from(self.0)
    }

    /// The server of the task's own number (rule 1.2).
    pub fn own_server(self) -> ServerNumber {
        ServerNumber(self.0)
    }
}

impl ServerNumber {
    pub fn index(self) -> usize {
        usize::from(self.0)
    }

    pub fn own_task(self) -> TaskNumber {
        TaskNumber(self.0)
    }
}

impl ResourceNumber {
    pub fn index(self) -> usize {
        usize::from(self.0)
    }
}

#[derive(Clone, Copy, Debug, Default, PartialEq, Eq)]
pub enum Phase {
    #[default]
    Idle,
    Active,
    Running,
    Recharging,
}

#[derive(Clone, Copy, Debug, Default, PartialEq, Eq)]
pub struct Server {
    pub phase: Phase,
    pub budget: u32,
    pub deadline: u32,
    /// Q, what the budget is refilled to.
    pub quota: u32,
    /// P, how far ahead a refill sets the deadline.
    pub period: u32,
    /// Ticks executing its own task.
    pub own: u32,
    /// Ticks executing another task.
    pub lent: u32,
    /// Ticks spinning.
    pub spin: u32,
}

#[derive(Clone, Copy, Debug, Default, PartialEq, Eq)]
pub enum Mode {
    #[default]
    Suspended,
    Ready,
    Waiting(ResourceNumber),
}

#[derive(Clone, Copy, Debug, Default, PartialEq, Eq)]
pub struct Task {
    pub mode: Mode,
    /// The server it executes in.
    pub runs: Option<ServerNumber>,
    /// Bit r is set when the task may lock resource r.
    pub declared: u16,
    pub executed: u32,
    /// How many places of `held` are in use; the last of them is the top of the stack.
    pub depth: u16,
    pub held: [ResourceNumber; RESOURCE_LIMIT],
}

#[derive(Clone, Copy, Debug, Default, PartialEq, Eq)]
pub struct Resource {
    pub owner: Option<TaskNumber>,
    /// How many places of `queue` are in use; the first waiter stands at place 0.
    pub waiting: u16,
    pub queue: [TaskNumber; TASK_LIMIT],
}

/// The whole state, by value, so that two of them can be compared field by field. Its default is
/// what a refused `fresh` returns: no processors, no tasks, no resources.
#[derive(Clone, Copy, Debug, Default, PartialEq, Eq)]
pub struct State {
    pub processors: u16,
    pub tasks: u16,
    pub resources: u16,
    pub clock: u32,
    pub server: [Server; TASK_LIMIT],
    pub task: [Task; TASK_LIMIT],
    pub resource: [Resource; RESOURCE_LIMIT],
}

/// The counts that a fresh state starts from.
#[derive(Clone, Copy, Debug, Default, PartialEq, Eq)]
pub struct Counts {
    pub processors: u16,
    pub tasks: u16,
    pub resources: u16,
}

/// What a fresh state is told about one task and its server.
#[derive(Clone, Copy, Debug, Default, PartialEq, Eq)]
pub struct Reservation {
    pub quota: u32,
    pub period: u32,
    pub declared: u16,
}

/// All that `fresh` asks for. Rows past the task count are ignored (rule 5.1).
#[derive(Clone, Copy, Debug, Default, PartialEq, Eq)]
pub struct Table {
    pub counts: Counts,
    pub rows: [Reservation; TASK_LIMIT],
}

/// What a server does at this moment.
#[derive(Clone, Copy, Debug, PartialEq, Eq)]
pub enum Execution {
    Executes(TaskNumber),
    /// The task that it serves executes elsewhere.
    Spins(TaskNumber),
    NotRunning,
}

impl Task {
    /// The resources on the stack, the top last. A depth past the array counts as a full one.
    pub fn stack(&self) -> &[ResourceNumber] {
        &self.held[..usize::from(self.depth).min(RESOURCE_LIMIT)]
    }

    pub fn declares(&self, resource: ResourceNumber) -> bool {
        resource.index() < RESOURCE_LIMIT && self.declared >> resource.0 & 1 == 1
    }

    pub(crate) fn push(&mut self, resource: ResourceNumber) {
        self.held[usize::from(self.depth)] = resource;
        self.depth += 1;
    }

    /// A place given up is set to 0 (rule 2.6).
    pub(crate) fn pop(&mut self) {
        self.depth -= 1;
        self.held[usize::from(self.depth)] = ResourceNumber(0);
    }
}

impl Resource {
    /// The waiters in order, the first come first. A count past the array counts as a full one.
    pub fn waiters(&self) -> &[TaskNumber] {
        &self.queue[..usize::from(self.waiting).min(TASK_LIMIT)]
    }

    pub(crate) fn join(&mut self, task: TaskNumber) {
        self.queue[usize::from(self.waiting)] = task;
        self.waiting += 1;
    }

    /// Takes the first waiter out; the others move up and the place given up is 0 (rule 2.6).
    pub(crate) fn take_first(&mut self) -> Option<TaskNumber> {
        let count = usize::from(self.waiting);
        let first = *self.waiters().first()?;
        self.queue.copy_within(1..count, 0);
        self.queue[count - 1] = TaskNumber(0);
        self.waiting -= 1;
        Some(first)
    }
}

impl Index<TaskNumber> for State {
    type Output = Task;
    fn index(&self, number: TaskNumber) -> &Task {
        &self.task[number.index()]
    }
}

impl IndexMut<TaskNumber> for State {
    fn index_mut(&mut self, number: TaskNumber) -> &mut Task {
        &mut self.task[number.index()]
    }
}

impl Index<ServerNumber> for State {
    type Output = Server;
    fn index(&self, number: ServerNumber) -> &Server {
        &self.server[number.index()]
    }
}

impl IndexMut<ServerNumber> for State {
    fn index_mut(&mut self, number: ServerNumber) -> &mut Server {
        &mut self.server[number.index()]
    }
}

impl Index<ResourceNumber> for State {
    type Output = Resource;
    fn index(&self, number: ResourceNumber) -> &Resource {
        &self.resource[number.index()]
    }
}

impl IndexMut<ResourceNumber> for State {
    fn index_mut(&mut self, number: ResourceNumber) -> &mut Resource {
        &mut self.resource[number.index()]
    }
}

impl State {
    /// The tasks there are; a count past the array is cut to it.
    fn task_count(&self) -> u16 {
        self.tasks.min(TASK_LIMIT as u16)
    }

    fn resource_count(&self) -> u16 {
        self.resources.min(RESOURCE_LIMIT as u16)
    }

    pub fn has_task(&self, task: TaskNumber) -> bool {
        task.0 < self.task_count()
    }

    pub fn has_server(&self, server: ServerNumber) -> bool {
        server.0 < self.task_count()
    }

    pub fn has_resource(&self, resource: ResourceNumber) -> bool {
        resource.0 < self.resource_count()
    }

    pub fn task_numbers(&self) -> impl Iterator<Item = TaskNumber> {
        (0..self.task_count()).map(TaskNumber)
    }

    pub fn server_numbers(&self) -> impl Iterator<Item = ServerNumber> {
        (0..self.task_count()).map(ServerNumber)
    }

    pub fn resource_numbers(&self) -> impl Iterator<Item = ResourceNumber> {
        (0..self.resource_count()).map(ResourceNumber)
    }

    /// The owner of what the task waits for: the next link of its chain. An owner that is not in
    /// use counts as none (rule 3.1).
    pub fn next_in_chain(&self, task: TaskNumber) -> Option<TaskNumber> {
        if !self.has_task(task) {
            return None;
        }
        match self[task].mode {
            Mode::Waiting(resource) if self.has_resource(resource) => {
                self[resource].owner.filter(|&owner| self.has_task(owner))
            }
            _ => None,
        }
    }

    /// Where the links lead from the task (rule 3.2). A number not in use is its own end, and a
    /// closed chain is followed for sixteen links.
    pub fn chain_end(&self, task: TaskNumber) -> TaskNumber {
        let mut end = task;
        for _ in 0..TASK_LIMIT {
            match self.next_in_chain(end) {
                Some(owner) => end = owner,
                None => break,
            }
        }
        end
    }

    /// The chain end of the server's own task (rule 3.3).
    pub fn served_by(&self, server: ServerNumber) -> TaskNumber {
        self.chain_end(server.own_task())
    }

    /// Whether the server executes a task, spins, or isn't running (rule 3.4).
    pub fn executing(&self, server: ServerNumber) -> Execution {
        if !self.has_server(server) || self[server].phase != Phase::Running {
            return Execution::NotRunning;
        }
        let task = self.served_by(server);
        if self.has_task(task) && self[task].runs == Some(server) {
            Execution::Executes(task)
        } else {
            Execution::Spins(task)
        }
    }

    pub fn running_count(&self) -> usize {
        self.server_numbers()
            .filter(|&server| self[server].phase == Phase::Running)
            .count()
    }
}

/// The bits of a declared set that name resources which exist.
fn existing_bits(resources: u16) -> u16 {
    let bits = (1u32 << u32::from(resources).min(RESOURCE_LIMIT as u32)) - 1;
    bits as u16
}

impl Counts {
    /// Refusal 19 (rules 1.1 to 1.3).
    pub fn check(&self) -> Result<(), Refusal> {
        let in_range = (1..=PROCESSOR_LIMIT).contains(&usize::from(self.processors))
            && (1..=TASK_LIMIT).contains(&usize::from(self.tasks))
            && usize::from(self.resources) <= RESOURCE_LIMIT;
        require(in_range, Refusal::CountsOutOfRange)
    }
}

impl Reservation {
    /// Rule 1.4.
    fn is_in_range(&self) -> bool {
        1 <= self.quota && self.quota <= self.period && self.period <= TICK_LIMIT
    }

    /// Refusals 20 and then 21, for a machine with so many resources.
    pub fn check(&self, resources: u16) -> Result<(), Refusal> {
        require(self.is_in_range(), Refusal::QuotaOrPeriodOutOfRange)?;
        let absent = self.declared & !existing_bits(resources);
        require(absent == 0, Refusal::DeclaredResourceAbsent)
    }
}

impl Table {
    /// The rows of the tasks there are.
    pub fn used_rows(&self) -> &[Reservation] {
        &self.rows[..usize::from(self.counts.tasks).min(TASK_LIMIT)]
    }

    /// The counts, then task by task (rule 5.4).
    pub fn check(&self) -> Result<(), Refusal> {
        self.counts.check()?;
        self.used_rows()
            .iter()
            .try_for_each(|row| row.check(self.counts.resources))
    }
}

/// The state that a table starts from (rule 5.2). A refusal comes with the state that is of no use
/// (rule 5.5).
pub fn fresh(table: &Table) -> (State, Result<(), Refusal>) {
    if let Err(refusal) = table.check() {
        return (State::default(), Err(refusal));
    }
    let mut state = State {
        processors: table.counts.processors,
        tasks: table.counts.tasks,
        resources: table.counts.resources,
        ..State::default()
    };
    for (number, row) in table.used_rows().iter().enumerate() {
        state.server[number].budget = row.quota;
        state.server[number].quota = row.quota;
        state.server[number].period = row.period;
        state.task[number].declared = row.declared;
    }
    (state, Ok(()))
}
