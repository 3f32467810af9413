//! A state in bytes: the offsets of docs/STATE.md, both ways, bytes past the counts, and bytes that no
//! state has; meter rows in bytes; and an answer in its 64 bits.
//!
//! Assumes nothing.

use super::bench::{lock, Machine};
use second::generate::random::Random;
use second::generate::states::{sound_state, tangled_state};
use second::image::{decode, encode, in_use, write, STATE_BYTES};
use second::library::{executing, is_sound, layout, meter, step, METER_ROW_BYTES};
use second::state::{
    Mode, Phase, Resource, ResourceNumber, Server, ServerNumber, State, Task, TaskNumber,
};

const TASKS_AT: usize = 474;
const RESOURCES_AT: usize = 1_210;

#[test]
fn both_ways() {
    for seed in 0..500 {
        let mut random = Random::new(seed);
        for state in [sound_state(&mut random), tangled_state(&mut random)] {
            assert_eq!(decode(&encode(&state)), Some(emptied_past(state)));
        }
    }
}

/// The state with nothing in its entries past the counts.
fn emptied_past(mut state: State) -> State {
    let (tasks, resources) = (usize::from(state.tasks), usize::from(state.resources));
    state.server[tasks..].fill(Server::default());
    state.task[tasks..].fill(Task::default());
    state.resource[resources..].fill(Resource::default());
    state
}

/// Any bytes past the counts: they are not read, and stay where the state is written.
#[test]
fn past_the_counts() {
    for seed in 0..500 {
        let mut random = Random::new(seed);
        let state = sound_state(&mut random);
        let mut bytes: Vec<u8> = (0..STATE_BYTES).map(|_| random.draw() as u8).collect();
        let before = bytes.clone();
        write(&state, &mut bytes);
        assert_eq!(decode(&bytes), Some(emptied_past(state)));
        let parts = in_use(state.tasks, state.resources);
        let image = encode(&state);
        for at in 0..STATE_BYTES {
            let is_used = parts.iter().any(|part| part.contains(&at));
            let expected = if is_used { image[at] } else { before[at] };
            assert_eq!(bytes[at], expected, "byte {at}");
        }
    }
}

/// One field of each kind, where the page says that it stands.
#[test]
fn fields_stand_at_their_offsets() {
    let mut state = State {
        clock: 0x0403_0201,
        ..State::default()
    };
    state.server[1].phase = Phase::Recharging;
    state.server[1].spin = 7;
    state.task[2].mode = Mode::Waiting(ResourceNumber(3));
    state.task[2].runs = Some(ServerNumber(4));
    state.task[2].held[15] = ResourceNumber(5);
    state.resource[3].owner = Some(TaskNumber(6));
    state.resource[3].queue[0] = TaskNumber(0x0809);
    let bytes = encode(&state);
    let task = TASKS_AT + 46 * 2;
    let resource = RESOURCES_AT + 37 * 3;
    let set: Vec<(usize, u8)> = (0..).zip(bytes).filter(|&(_, byte)| byte != 0).collect();
    let expected = [
        (6, 1),
        (7, 2),
        (8, 3),
        (9, 4),
        (10 + 29, 3),
        (10 + 29 + 25, 7),
        (task, 2),
        (task + 1, 3),
        (task + 3, 1),
        (task + 4, 4),
        (task + 14 + 30, 5),
        (resource, 1),
        (resource + 1, 6),
        (resource + 5, 9),
        (resource + 6, 8),
    ];
    assert_eq!(set, expected);
}

/// In the last entry in use they make it no state's; in the next one they are not read.
#[test]
fn bytes_that_no_state_has() {
    let empty = encode(&State {
        tasks: 3,
        resources: 2,
        ..State::default()
    });
    assert_eq!(empty.len(), STATE_BYTES);
    assert_eq!(decode(&empty[1..]), None);
    let (server, task, resource) = (10 + 29 * 2, TASKS_AT + 46 * 2, RESOURCES_AT + 37);
    for (at, size, byte) in [
        (server, 29, 4),
        (task, 46, 3),
        (task + 1, 46, 1),
        (task + 3, 46, 2),
        (task + 4, 46, 1),
        (resource, 37, 2),
        (resource + 2, 37, 1),
    ] {
        let mut bytes = empty.clone();
        bytes[at] = byte;
        assert_eq!(decode(&bytes), None, "byte {at}");
        let mut bytes = empty.clone();
        bytes[at + size] = byte;
        assert_eq!(decode(&bytes), decode(&empty), "byte {}", at + size);
    }
}

#[test]
fn meter_rows_stand_at_their_offsets() {
    let mut random = Random::new(1);
    let state = sound_state(&mut random);
    let bytes = encode(&state);
    let tasks = usize::from(state.tasks);
    let mut rows = vec![7; METER_ROW_BYTES * (tasks + 1)];
    assert_eq!(meter(&bytes, &mut rows), tasks as u64);
    for (row, server) in rows
        .chunks(METER_ROW_BYTES)
        .zip(bytes[10..].chunks(29))
        .take(tasks)
    {
        // phase and budget, then own, lent and spin, as the server has them
        assert_eq!(row[..5], server[..5]);
        assert_eq!(row[5..], server[17..]);
    }
    assert!(rows[METER_ROW_BYTES * tasks..]
        .iter()
        .all(|&byte| byte == 7));
}

/// Word, what follows and number, each from its bit on.
#[test]
fn answers_stand_at_their_bits() {
    let mut machine = Machine::new(2, 16, &[(9, 9), (9, 9)]);
    let mut bytes = encode(&machine.state);
    // suspend, of a task that sleeps, of none, and a kind that is no event's
    assert_eq!(step(&mut bytes, 2, 0, 0, 0), 7 << 56 | 61);
    assert_eq!(step(&mut bytes, 2, 2, 0, 0), 7 << 56 | 2);
    assert_eq!(step(&mut bytes, 9, 0, 0, 0), 7 << 56 | 31);
    machine.start(&[0, 1]);
    for of in [0, 15] {
        machine.accept(lock(0, of));
        let mut waits = encode(&machine.state);
        assert_eq!(step(&mut waits, 7, 1, of, 0), 4 << 56);
        let further = u64::from(of) + 1;
        let refused = 7 << 56 | further << 32 | 62;
        assert_eq!(step(&mut waits, 2, 1, 0, 0), refused);
        assert_eq!(step(&mut waits, 8, 1, 3, 0), refused);
        assert_eq!(executing(&waits, 0), 1 << 56);
        assert_eq!(executing(&waits, 1), 2 << 56);
    }
    assert_eq!(is_sound(&bytes), 0);
    assert_eq!(meter(&bytes, &mut [0; 1]), 7 << 56);
    assert_eq!(layout(), 1);
}
