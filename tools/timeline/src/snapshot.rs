//! A state taken out of its bytes (`docs/STATE.md`), with what the library says that each server
//! does.
//!
//! Assumes a state that the library gave: numbers past the counts and stacks above sixteen do not
//! occur in one.

use vesztamor::{Answer, State};

const SERVERS_AT: usize = 10;
const SERVER_SIZE: usize = 29;
const TASKS_AT: usize = 474;
const TASK_SIZE: usize = 46;
const RESOURCES_AT: usize = 1_210;
const RESOURCE_SIZE: usize = 37;

#[derive(Clone, Copy, Debug, PartialEq, Eq)]
pub enum Phase {
    Idle,
    Active,
    Running,
    Recharging,
}

#[derive(Clone, Copy, Debug, PartialEq, Eq)]
pub struct Server {
    pub phase: Phase,
    pub budget: u32,
    pub deadline: u32,
    pub quota: u32,
    pub period: u32,
    pub own: u32,
    pub lent: u32,
    pub spin: u32,
    /// The library's answer: executes or spins, and the task; `Ok(0)` where it is not Running.
    pub doing: Answer,
}

#[derive(Clone, Copy, Debug, PartialEq, Eq)]
pub enum Mode {
    Suspended,
    Ready,
    Waiting(u16),
}

#[derive(Clone, Debug, PartialEq, Eq)]
pub struct Task {
    pub mode: Mode,
    /// The server that it executes in.
    pub executor: Option<u16>,
    pub declared: u16,
    pub executed: u32,
    /// The latest last.
    pub held: Vec<u16>,
}

#[derive(Clone, Debug, PartialEq, Eq)]
pub struct Resource {
    pub owner: Option<u16>,
    /// The first come first.
    pub queue: Vec<u16>,
}

#[derive(Clone, Debug, PartialEq, Eq)]
pub struct Snapshot {
    pub processors: u16,
    pub clock: u32,
    pub servers: Vec<Server>,
    pub tasks: Vec<Task>,
    pub resources: Vec<Resource>,
}

impl Snapshot {
    pub fn of(state: &State) -> Snapshot {
        let bytes = &state.bytes[..];
        let (tasks, resources) = (two(bytes, 2), two(bytes, 4));
        let server = |number: u16| {
            let entry = &bytes[SERVERS_AT + SERVER_SIZE * usize::from(number)..][..SERVER_SIZE];
            server(entry, state.executing(number))
        };
        let task =
            |number: u16| task(&bytes[TASKS_AT + TASK_SIZE * usize::from(number)..][..TASK_SIZE]);
        let resource = |number: u16| {
            resource(&bytes[RESOURCES_AT + RESOURCE_SIZE * usize::from(number)..][..RESOURCE_SIZE])
        };
        Snapshot {
            processors: two(bytes, 0),
            clock: four(bytes, 6),
            servers: (0..tasks).map(server).collect(),
            tasks: (0..tasks).map(task).collect(),
            resources: (0..resources).map(resource).collect(),
        }
    }
}

fn server(entry: &[u8], doing: Answer) -> Server {
    Server {
        phase: [
            Phase::Idle,
            Phase::Active,
            Phase::Running,
            Phase::Recharging,
        ][usize::from(entry[0] & 3)],
        budget: four(entry, 1),
        deadline: four(entry, 5),
        quota: four(entry, 9),
        period: four(entry, 13),
        own: four(entry, 17),
        lent: four(entry, 21),
        spin: four(entry, 25),
        doing,
    }
}

fn task(entry: &[u8]) -> Task {
    let mode = match entry[0] {
        0 => Mode::Suspended,
        1 => Mode::Ready,
        _ => Mode::Waiting(two(entry, 1)),
    };
    Task {
        mode,
        executor: (entry[3] != 0).then(|| two(entry, 4)),
        declared: two(entry, 6),
        executed: four(entry, 10),
        held: numbers(&entry[14..], two(entry, 8)),
    }
}

fn resource(entry: &[u8]) -> Resource {
    Resource {
        owner: (entry[0] != 0).then(|| two(entry, 1)),
        queue: numbers(&entry[5..], two(entry, 3)),
    }
}

/// The first so many numbers of a stack or a queue.
fn numbers(places: &[u8], count: u16) -> Vec<u16> {
    let all = places.chunks_exact(2).map(|place| two(place, 0));
    all.take(count.into()).collect()
}

fn two(bytes: &[u8], at: usize) -> u16 {
    u16::from_le_bytes([bytes[at], bytes[at + 1]])
}

fn four(bytes: &[u8], at: usize) -> u32 {
    u32::from_le_bytes([bytes[at], bytes[at + 1], bytes[at + 2], bytes[at + 3]])
}
