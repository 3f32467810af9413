//! A state in bytes, as docs/STATE.md lays it out: how states are handed to the static library and
//! compared with what it leaves. Entries past the counts are neither read nor written.
//!
//! Assumes nothing of the bytes; those that no state has are none.

use crate::state::{
    Mode, Phase, Resource, ResourceNumber, Server, ServerNumber, State, Task, TaskNumber,
    RESOURCE_LIMIT, TASK_LIMIT,
};
use std::ops::Range;

pub const STATE_BYTES: usize = 1802;
const HEADER_BYTES: usize = 10;
const SERVER_BYTES: usize = 29;
const TASK_BYTES: usize = 46;
const RESOURCE_BYTES: usize = 37;
const TASKS_AT: usize = 474;
const RESOURCES_AT: usize = 1210;

/// The bytes that count: the header, and the servers, tasks and resources in use.
pub fn in_use(tasks: u16, resources: u16) -> [Range<usize>; 4] {
    let tasks = usize::from(tasks).min(TASK_LIMIT);
    let resources = usize::from(resources).min(RESOURCE_LIMIT);
    let entries = |at: usize, size: usize, count: usize| at..at + size * count;
    [
        0..HEADER_BYTES,
        entries(HEADER_BYTES, SERVER_BYTES, tasks),
        entries(TASKS_AT, TASK_BYTES, tasks),
        entries(RESOURCES_AT, RESOURCE_BYTES, resources),
    ]
}

/// Puts the header and the entries in use in place of their bytes.
pub fn write(state: &State, bytes: &mut [u8]) {
    let image = encode(state);
    for part in in_use(state.tasks, state.resources) {
        bytes[part.clone()].copy_from_slice(&image[part]);
    }
}

/// A state's bytes, its entries past the counts too.
pub fn encode(state: &State) -> Vec<u8> {
    let mut image = Writer(Vec::with_capacity(STATE_BYTES));
    image.two(state.processors);
    image.two(state.tasks);
    image.two(state.resources);
    image.four(state.clock);
    state.server.iter().for_each(|server| image.server(server));
    state.task.iter().for_each(|task| image.task(task));
    let resources = state.resource.iter();
    resources.for_each(|resource| image.resource(resource));
    image.0
}

/// The state that the bytes hold, if they are some state's; entries past its counts are empty.
pub fn decode(bytes: &[u8]) -> Option<State> {
    if bytes.len() != STATE_BYTES {
        return None;
    }
    let mut header = Reader(bytes);
    let mut state = State {
        processors: header.two(),
        tasks: header.two(),
        resources: header.two(),
        clock: header.four(),
        ..State::default()
    };
    let [_, servers, tasks, resources] = in_use(state.tasks, state.resources);
    let entries = bytes[servers].chunks(SERVER_BYTES).map(Reader);
    for (server, mut entry) in state.server.iter_mut().zip(entries) {
        *server = entry.server()?;
    }
    let entries = bytes[tasks].chunks(TASK_BYTES).map(Reader);
    for (task, mut entry) in state.task.iter_mut().zip(entries) {
        *task = entry.task()?;
    }
    let entries = bytes[resources].chunks(RESOURCE_BYTES).map(Reader);
    for (resource, mut entry) in state.resource.iter_mut().zip(entries) {
        *resource = entry.resource()?;
    }
    Some(state)
}

/// A phase as it stands in a state's bytes and in a meter row's.
pub fn phase_byte(phase: Phase) -> u8 {
    match phase {
        Phase::Idle => 0,
        Phase::Active => 1,
        Phase::Running => 2,
        Phase::Recharging => 3,
    }
}

struct Writer(Vec<u8>);

impl Writer {
    fn one(&mut self, number: u8) {
        self.0.push(number);
    }

    fn two(&mut self, number: u16) {
        self.0.extend(number.to_le_bytes());
    }

    fn four(&mut self, number: u32) {
        self.0.extend(number.to_le_bytes());
    }

    /// Whether there is a number, and the number or 0.
    fn optional(&mut self, number: Option<u16>) {
        self.one(u8::from(number.is_some()));
        self.two(number.unwrap_or(0));
    }

    fn server(&mut self, server: &Server) {
        self.one(phase_byte(server.phase));
        self.four(server.budget);
        self.four(server.deadline);
        self.four(server.quota);
        self.four(server.period);
        self.four(server.own);
        self.four(server.lent);
        self.four(server.spin);
    }

    fn task(&mut self, task: &Task) {
        let (mode, awaited) = match task.mode {
            Mode::Suspended => (0, 0),
            Mode::Ready => (1, 0),
            Mode::Waiting(resource) => (2, resource.0),
        };
        self.one(mode);
        self.two(awaited);
        self.optional(task.runs.map(|server| server.0));
        self.two(task.declared);
        self.two(task.depth);
        self.four(task.executed);
        task.held.iter().for_each(|resource| self.two(resource.0));
    }

    fn resource(&mut self, resource: &Resource) {
        self.optional(resource.owner.map(|task| task.0));
        self.two(resource.waiting);
        resource.queue.iter().for_each(|task| self.two(task.0));
    }
}

/// The bytes not yet read; whoever reads knows that there are enough.
struct Reader<'a>(&'a [u8]);

impl Reader<'_> {
    fn one(&mut self) -> u8 {
        let first = self.0[0];
        self.0 = &self.0[1..];
        first
    }

    fn two(&mut self) -> u16 {
        u16::from_le_bytes([self.one(), self.one()])
    }

    fn four(&mut self) -> u32 {
        u32::from_le_bytes([self.one(), self.one(), self.one(), self.one()])
    }

    /// A number or none; where there is none, 0 stands in its place.
    fn optional(&mut self) -> Option<Option<u16>> {
        match (self.one(), self.two()) {
            (0, 0) => Some(None),
            (1, number) => Some(Some(number)),
            _ => None,
        }
    }

    fn server(&mut self) -> Option<Server> {
        let phase = match self.one() {
            0 => Phase::Idle,
            1 => Phase::Active,
            2 => Phase::Running,
            3 => Phase::Recharging,
            _ => return None,
        };
        Some(Server {
            phase,
            budget: self.four(),
            deadline: self.four(),
            quota: self.four(),
            period: self.four(),
            own: self.four(),
            lent: self.four(),
            spin: self.four(),
        })
    }

    fn task(&mut self) -> Option<Task> {
        let mode = match (self.one(), self.two()) {
            (0, 0) => Mode::Suspended,
            (1, 0) => Mode::Ready,
            (2, resource) => Mode::Waiting(ResourceNumber(resource)),
            _ => return None,
        };
        let mut task = Task {
            mode,
            runs: self.optional()?.map(ServerNumber),
            declared: self.two(),
            depth: self.two(),
            executed: self.four(),
            ..Task::default()
        };
        task.held.fill_with(|| ResourceNumber(self.two()));
        Some(task)
    }

    fn resource(&mut self) -> Option<Resource> {
        let mut resource = Resource {
            owner: self.optional()?.map(TaskNumber),
            waiting: self.two(),
            ..Resource::default()
        };
        resource.queue.fill_with(|| TaskNumber(self.two()));
        Some(resource)
    }
}
