//! Makes a case on which the sides differ smaller, as long as they still differ: records, sections
//! and rows are left out, tasks set free, fields set to 0.
//!
//! Assumes that the sides differ on the case given.

use crate::case::{Case, Sides};
use crate::layout::fields;
use second::image::{decode, write, STATE_BYTES};
use second::state::{Mode, Phase, ResourceNumber, State, TaskNumber, RESOURCE_LIMIT, TASK_LIMIT};

/// How many smaller cases are tried at most; a long trace takes its time.
const ATTEMPTS: usize = 6_000;

pub fn shrunk(sides: &Sides, case: &Case) -> Case {
    let mut smallest = case.clone();
    let mut attempts = 0;
    loop {
        let before = smallest.clone();
        for reduction in reductions(&before) {
            let Some(smaller) = reduction.of(&smallest).filter(|made| *made != smallest) else {
                continue;
            };
            attempts += 1;
            if sides.differ(&smaller) {
                smallest = smaller;
            }
            if attempts == ATTEMPTS {
                return smallest;
            }
        }
        if smallest == before {
            return smallest;
        }
    }
}

/// One way of making a case smaller.
#[derive(Clone, Copy, Debug)]
enum Reduction {
    /// Leaves out so many pieces of a trace from a place on.
    DropPieces {
        from: usize,
        count: usize,
    },
    DropLastRow,
    DropSection(usize),
    Shorten(usize),
    DropLastTask,
    DropLastResource,
    Free(u16),
    Unblock(u16),
    Rest(u16),
    /// Sets a field to 0.
    Reset(usize),
}

fn reductions(case: &Case) -> Vec<Reduction> {
    match case {
        Case::Layout => Vec::new(),
        Case::Replay { trace, .. } => piece_reductions(pieces(trace).len()),
        Case::Fresh { .. } => vec![Reduction::DropLastRow; TASK_LIMIT],
        Case::Sound { .. } | Case::Step { .. } | Case::Executing { .. } | Case::Meter { .. } => {
            state_reductions()
        }
        Case::Bound { sections, .. } => {
            let numbers = || (0..sections.len() / 9).rev();
            let drops = numbers().map(Reduction::DropSection);
            drops.chain(numbers().map(Reduction::Shorten)).collect()
        }
    }
}

/// Large parts first, and from the end, so that the places before stay what they are.
fn piece_reductions(total: usize) -> Vec<Reduction> {
    let mut reductions = Vec::new();
    let mut count = total;
    while count > 0 {
        let from = (0..total).step_by(count).rev();
        reductions.extend(from.map(|from| Reduction::DropPieces { from, count }));
        count /= 2;
    }
    reductions
}

fn state_reductions() -> Vec<Reduction> {
    let resources = (0..RESOURCE_LIMIT as u16).map(Reduction::Free);
    let tasks = (0..TASK_LIMIT as u16).flat_map(|t| [Reduction::Unblock(t), Reduction::Rest(t)]);
    let lasts = [Reduction::DropLastTask, Reduction::DropLastResource];
    let lasts = lasts.into_iter().cycle().take(2 * TASK_LIMIT);
    let resets = (0..fields().len()).map(Reduction::Reset);
    resources.chain(tasks).chain(lasts).chain(resets).collect()
}

/// The records of a trace, and what can't be read as records as one piece.
fn pieces(trace: &[u8]) -> Vec<&[u8]> {
    let mut pieces = Vec::new();
    let mut rest = trace;
    while let Some(&[low, high]) = rest.get(..2) {
        let size = 2 + usize::from(u16::from_le_bytes([low, high]));
        if size < 4 || rest.len() < size {
            break;
        }
        let (record, after) = rest.split_at(size);
        pieces.push(record);
        rest = after;
    }
    if !rest.is_empty() {
        pieces.push(rest);
    }
    pieces
}

impl Reduction {
    /// The smaller case, if this reduction fits it.
    fn of(self, case: &Case) -> Option<Case> {
        let mut smaller = case.clone();
        match &mut smaller {
            Case::Layout => return None,
            Case::Replay { trace, .. } => *trace = self.of_trace(trace)?,
            Case::Fresh { table, .. } => {
                let tasks = u16::from_le_bytes([*table.get(2)?, *table.get(3)?]);
                let fewer = tasks.checked_sub(1)?;
                table[2..4].copy_from_slice(&fewer.to_le_bytes());
                table.truncate(table.len().saturating_sub(10));
            }
            Case::Sound { state }
            | Case::Step { state, .. }
            | Case::Executing { state, .. }
            | Case::Meter { state, .. } => *state = self.of_state(state)?,
            Case::Bound { sections, .. } => self.of_sections(sections)?,
        }
        Some(smaller)
    }

    fn of_trace(self, trace: &[u8]) -> Option<Vec<u8>> {
        let Reduction::DropPieces { from, count } = self else {
            return None;
        };
        let mut pieces = pieces(trace);
        if from >= pieces.len() {
            return None;
        }
        pieces.drain(from..pieces.len().min(from + count));
        Some(pieces.concat())
    }

    fn of_state(self, bytes: &[u8]) -> Option<Vec<u8>> {
        if let Reduction::Reset(number) = self {
            let mut bytes = bytes.to_vec();
            if bytes.len() == STATE_BYTES {
                fields()[number].set(&mut bytes, 0);
            }
            return Some(bytes);
        }
        let mut state = decode(bytes)?;
        match self {
            Reduction::DropLastTask => state.tasks = state.tasks.checked_sub(1)?,
            Reduction::DropLastResource => state.resources = state.resources.checked_sub(1)?,
            Reduction::Free(resource) => free(&mut state, ResourceNumber(resource)),
            Reduction::Unblock(task) => unblock(&mut state, TaskNumber(task)),
            Reduction::Rest(task) => rest(&mut state, TaskNumber(task)),
            _ => return None,
        }
        let mut smaller = bytes.to_vec();
        write(&state, &mut smaller);
        Some(smaller)
    }

    fn of_sections(self, bytes: &mut Vec<u8>) -> Option<()> {
        let place = |number: usize| 4 + 9 * number;
        match self {
            Reduction::Shorten(number) => {
                let length = bytes.get_mut(place(number) + 4..place(number) + 8)?;
                length.copy_from_slice(&1u32.to_le_bytes());
            }
            Reduction::DropSection(number) => {
                let count = u16::from_le_bytes([*bytes.get(2)?, *bytes.get(3)?]).checked_sub(1)?;
                bytes.get(place(number)..place(number + 1))?;
                bytes.drain(place(number)..place(number + 1));
                bytes[2..4].copy_from_slice(&count.to_le_bytes());
                for section in bytes[4..].chunks_mut(9) {
                    let parent = section.last_mut()?;
                    if *parent != u8::MAX && usize::from(*parent) > number {
                        *parent -= 1;
                    }
                }
            }
            _ => return None,
        }
        Some(())
    }
}

/// Takes a resource from its owner and lets nobody wait for it.
fn free(state: &mut State, resource: ResourceNumber) {
    for task in state.task_numbers() {
        if state[task].mode == Mode::Waiting(resource) {
            unblock(state, task);
        }
        let kept: Vec<ResourceNumber> = state[task].stack().to_vec();
        state[task].depth = 0;
        for held in kept.into_iter().filter(|&held| held != resource) {
            let place = usize::from(state[task].depth);
            state[task].held[place] = held;
            state[task].depth += 1;
        }
    }
    state[resource].owner = None;
}

/// Takes a task out of its queue.
fn unblock(state: &mut State, task: TaskNumber) {
    if let Mode::Waiting(resource) = state[task].mode {
        state[task].mode = Mode::Ready;
        if resource.index() < RESOURCE_LIMIT {
            let kept: Vec<TaskNumber> = state[resource].waiters().to_vec();
            state[resource].waiting = 0;
            for waiter in kept.into_iter().filter(|&waiter| waiter != task) {
                let place = usize::from(state[resource].waiting);
                state[resource].queue[place] = waiter;
                state[resource].waiting += 1;
            }
        }
    }
}

/// Puts a task to sleep and its server to rest.
fn rest(state: &mut State, task: TaskNumber) {
    unblock(state, task);
    state[task].mode = Mode::Suspended;
    state[task].runs = None;
    let server = &mut state[task.own_server()];
    server.phase = Phase::Idle;
    server.budget = server.quota;
}
