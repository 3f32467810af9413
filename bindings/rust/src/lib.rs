//! A safe wrapper over the static library (`.ci/library`). The proved functions take any bytes and any numbers, so nothing is tested here:
//! the wrapper only turns slices into pointers and lengths, and answers back into words. Layouts: `docs/STATE.md`. A program compares [`layout`] with
//! [`LAYOUT`] once, before anything else.
//!
//! A [`State`] is plain bytes. Where several processors share one, keep it behind one lock (a `Mutex<State>`, or the kernel's own): the library keeps
//! nothing between calls and waits for nothing.

/// The layout that this wrapper is for. It goes up whenever the bytes of a state, a table, a row or an answer change.
pub const LAYOUT: u64 = 1;
/// The bytes of a state.
pub const STATE_BYTES: usize = 1802;
/// The bytes of a bound: the bound in eight, the weighings in four.
pub const BOUND_BYTES: usize = 12;
/// The bytes of a meter row: the phase in one, then budget, own, lent and spin in four each.
pub const ROW_BYTES: usize = 17;
/// As many rows as a machine can have servers.
const MOST_ROWS: usize = 16;

/// The functions as they are declared for C, for whoever wants the bits of an answer as they come.
pub mod library {
    extern "C" {
        pub fn vesztamor_layout() -> u64;
        pub fn vesztamor_fresh(
            table: *const u8,
            table_length: usize,
            state: *mut u8,
            state_length: usize,
        ) -> u64;
        pub fn vesztamor_is_sound(state: *const u8, state_length: usize) -> u64;
        pub fn vesztamor_step(
            state: *mut u8,
            state_length: usize,
            kind: u16,
            number: u16,
            resource: u16,
            ticks: u32,
        ) -> u64;
        pub fn vesztamor_executing(state: *const u8, state_length: usize, server: u16) -> u64;
        pub fn vesztamor_meter(
            state: *const u8,
            state_length: usize,
            rows: *mut u8,
            rows_length: usize,
        ) -> u64;
        pub fn vesztamor_bound(
            sections: *const u8,
            sections_length: usize,
            task: u16,
            allowance: u32,
            out: *mut u8,
            out_length: usize,
        ) -> u64;
        pub fn vesztamor_replay(
            trace: *const u8,
            trace_length: usize,
            out: *mut u8,
            out_length: usize,
        ) -> u64;
    }
}

/// What a call answers: a word and its number (rule 10.1), and what follows where something does.
#[derive(Clone, Copy, Debug, PartialEq, Eq, Hash)]
pub enum Answer {
    Ok(u32),
    Executes(u32),
    Spins(u32),
    Granted(u32),
    Waits(u32),
    Passed(u32),
    Freed(u32),
    Refused(u32),
    /// Refused with 62: the task waits for this resource.
    RefusedWaiting(u32),
}

impl Answer {
    /// The answer that a packed number stands for: its word in bits 56 to 63, its number in bits 0 to 31, and between them 0, or one more than the
    /// number that follows. Panics on a number that the library never answers.
    pub fn of(packed: u64) -> Answer {
        let number = packed as u32;
        let further = (packed >> 32 & 0xff_ffff) as u32;
        match (packed >> 56, further, number) {
            (0, 0, _) => Answer::Ok(number),
            (1, 0, _) => Answer::Executes(number),
            (2, 0, _) => Answer::Spins(number),
            (3, 0, _) => Answer::Granted(number),
            (4, 0, _) => Answer::Waits(number),
            (5, 0, _) => Answer::Passed(number),
            (6, 0, _) => Answer::Freed(number),
            (7, 0, _) => Answer::Refused(number),
            (7, 1.., 62) => Answer::RefusedWaiting(further - 1),
            _ => panic!("no answer is packed as {packed:#x}: is the library of another layout?"),
        }
    }
}

#[derive(Clone, Copy, Debug, PartialEq, Eq, Hash)]
pub enum Phase {
    Idle,
    Active,
    Running,
    Recharging,
}

/// One server's meter row.
#[derive(Clone, Copy, Debug, PartialEq, Eq, Hash)]
pub struct Row {
    pub phase: Phase,
    pub budget: u32,
    pub own: u32,
    pub lent: u32,
    pub spin: u32,
}

impl Row {
    /// The row that the library wrote into these bytes.
    pub fn of(bytes: &[u8; ROW_BYTES]) -> Row {
        let four = |at: usize| {
            u32::from_le_bytes([bytes[at], bytes[at + 1], bytes[at + 2], bytes[at + 3]])
        };
        Row {
            phase: match bytes[0] {
                0 => Phase::Idle,
                1 => Phase::Active,
                2 => Phase::Running,
                _ => Phase::Recharging,
            },
            budget: four(1),
            own: four(5),
            lent: four(9),
            spin: four(13),
        }
    }
}

#[derive(Clone, Copy, Debug, PartialEq, Eq, Hash)]
pub enum Event {
    Wake { task: u16 },
    Suspend { task: u16 },
    Dispatch { server: u16 },
    Preempt { server: u16 },
    Elapse { ticks: u32 },
    Recharge { server: u16 },
    Lock { task: u16, resource: u16 },
    Unlock { task: u16, resource: u16 },
}

/// A state in its bytes. Any bytes may be given; those that no state has are refused with number 1.
/// Bytes past the counts are neither read nor changed; `==` compares them too.
#[derive(Clone, PartialEq, Eq, Hash)]
pub struct State {
    pub bytes: [u8; STATE_BYTES],
}

impl State {
    /// The fresh state of a table in bytes, or the refusal's number.
    pub fn fresh(table: &[u8]) -> Result<State, u32> {
        let mut state = State {
            bytes: [0; STATE_BYTES],
        };
        match fresh_into(table, &mut state.bytes) {
            Answer::Refused(number) => Err(number),
            _ => Ok(state),
        }
    }

    pub fn is_sound(&self) -> bool {
        is_sound(&self.bytes) == Answer::Ok(0)
    }

    /// One event. A refusal leaves the state as it was.
    pub fn step(&mut self, event: Event) -> Answer {
        let (kind, number, resource, ticks) = match event {
            Event::Wake { task } => (1, task, 0, 0),
            Event::Suspend { task } => (2, task, 0, 0),
            Event::Dispatch { server } => (3, server, 0, 0),
            Event::Preempt { server } => (4, server, 0, 0),
            Event::Elapse { ticks } => (5, 0, 0, ticks),
            Event::Recharge { server } => (6, server, 0, 0),
            Event::Lock { task, resource } => (7, task, resource, 0),
            Event::Unlock { task, resource } => (8, task, resource, 0),
        };
        step(&mut self.bytes, kind, number, resource, ticks)
    }

    /// What a server is doing: it executes a task, spins for one, or (`Ok(0)`) is not Running.
    pub fn executing(&self, server: u16) -> Answer {
        executing(&self.bytes, server)
    }

    /// The meter rows of the servers in use, or the refusal's number.
    pub fn meter(&self) -> Result<Vec<Row>, u32> {
        let mut rows = [[0u8; ROW_BYTES]; MOST_ROWS];
        match meter_into(&self.bytes, rows.as_flattened_mut()) {
            Answer::Ok(count) => Ok(rows.iter().take(count as usize).map(Row::of).collect()),
            Answer::Refused(number) => Err(number),
            other => unreachable!("meter answers ok or refused, not {other:?}"),
        }
    }
}

/// The layout that the library is built for.
pub fn layout() -> u64 {
    unsafe { library::vesztamor_layout() }
}

/// The fresh state of a table, into the bytes lent for it.
pub fn fresh_into(table: &[u8], state: &mut [u8]) -> Answer {
    Answer::of(unsafe {
        library::vesztamor_fresh(table.as_ptr(), table.len(), state.as_mut_ptr(), state.len())
    })
}

/// Whether the bytes hold a sound state: `Ok(0)` or `Refused(1)`.
pub fn is_sound(state: &[u8]) -> Answer {
    Answer::of(unsafe { library::vesztamor_is_sound(state.as_ptr(), state.len()) })
}

/// One event on the state in the bytes, by the kind's number of a trace.
pub fn step(state: &mut [u8], kind: u16, number: u16, resource: u16, ticks: u32) -> Answer {
    Answer::of(unsafe {
        library::vesztamor_step(
            state.as_mut_ptr(),
            state.len(),
            kind,
            number,
            resource,
            ticks,
        )
    })
}

/// What a server is doing in the state in the bytes.
pub fn executing(state: &[u8], server: u16) -> Answer {
    Answer::of(unsafe { library::vesztamor_executing(state.as_ptr(), state.len(), server) })
}

/// The meter rows of the state in the bytes, one after the other into the rows lent for them: how many were written. Rows past these stay.
pub fn meter_into(state: &[u8], rows: &mut [u8]) -> Answer {
    Answer::of(unsafe {
        library::vesztamor_meter(state.as_ptr(), state.len(), rows.as_mut_ptr(), rows.len())
    })
}

/// The bound of a task and the weighings spent on it, or the refusal's number.
pub fn bound(sections: &[u8], task: u16, allowance: u32) -> Result<(u64, u32), u32> {
    let mut out = [0u8; BOUND_BYTES];
    let answer = unsafe {
        library::vesztamor_bound(
            sections.as_ptr(),
            sections.len(),
            task,
            allowance,
            out.as_mut_ptr(),
            out.len(),
        )
    };
    match Answer::of(answer) {
        Answer::Refused(number) => Err(number),
        _ => {
            let mut bound = [0u8; 8];
            let mut weighings = [0u8; 4];
            bound.copy_from_slice(&out[..8]);
            weighings.copy_from_slice(&out[8..]);
            Ok((u64::from_le_bytes(bound), u32::from_le_bytes(weighings)))
        }
    }
}

/// The room that the listing of a trace of so many bytes may need.
pub fn text_bytes(trace: usize) -> usize {
    13 * trace + 4000
}

/// The listing of a trace into a buffer: how long its text is, or `None`, and nothing written, where the buffer is shorter than [`text_bytes`].
pub fn replay_into(trace: &[u8], out: &mut [u8]) -> Option<usize> {
    let answer = unsafe {
        library::vesztamor_replay(trace.as_ptr(), trace.len(), out.as_mut_ptr(), out.len())
    };
    match Answer::of(answer) {
        Answer::Ok(length) => Some(length as usize),
        _ => None,
    }
}

/// The listing of a trace.
pub fn replay(trace: &[u8]) -> Vec<u8> {
    let mut out = vec![0u8; text_bytes(trace.len())];
    let length = replay_into(trace, &mut out).unwrap_or(0);
    out.truncate(length);
    out
}
