//! Entries past the counts, through the library: whatever stands there, both sides answer the same
//! and leave it as it is.
//!
//! Assumes nothing.

use cross::answer::Answer;
use cross::sides::{Call, Layer, Proved, Second};
use second::generate::events::{possible_events, Kind};
use second::generate::random::Random;
use second::generate::states::sound_state;
use second::image::{in_use, write, STATE_BYTES};
use second::state::{State, TASK_LIMIT};

const STATES: u64 = 300;

/// The state over memory that has this byte everywhere.
fn over(state: &State, byte: u8) -> Vec<u8> {
    let mut bytes = vec![byte; STATE_BYTES];
    write(state, &mut bytes);
    bytes
}

/// Whether the byte is the header's or an entry's in use.
fn is_used(state: &State, at: usize) -> bool {
    let parts = in_use(state.tasks, state.resources);
    parts.iter().any(|part| part.contains(&at))
}

fn asked(layer: &dyn Layer, state: &State, call: Call) {
    let zeros = over(state, 0);
    let full = over(state, 0xff);
    assert_eq!(layer.is_sound(&full), Answer::ok(0));
    for server in 0..=TASK_LIMIT as u16 {
        assert_eq!(
            layer.executing(&full, server),
            layer.executing(&zeros, server)
        );
    }
    let (mut zeros_after, mut full_after) = (zeros.clone(), full.clone());
    let answer = layer.step(&mut full_after, call);
    assert_eq!(answer, layer.step(&mut zeros_after, call));
    for at in 0..STATE_BYTES {
        let expected = match is_used(state, at) {
            true => zeros_after[at],
            false => 0xff,
        };
        assert_eq!(full_after[at], expected, "byte {at} after {call:?}");
        assert!(is_used(state, at) || zeros_after[at] == 0, "byte {at}");
    }
}

#[test]
fn nothing_past_the_counts_is_read_or_written() {
    for seed in 0..STATES {
        let mut random = Random::new(seed);
        let state = sound_state(&mut random);
        for kind in Kind::ALL {
            let possible = possible_events(&mut random, &state, kind);
            if let Some(event) = random.pick(&possible) {
                for layer in [&Proved as &dyn Layer, &Second] {
                    asked(layer, &state, Call::from(event));
                }
            }
        }
    }
}

/// A phase that is none, in the entry of a server that is not in use, and in one that is.
#[test]
fn a_faulty_entry_counts_where_it_is_in_use() {
    let last_server = 10 + 29 * 15;
    let unknown = Call {
        kind: 9,
        ..Call::default()
    };
    for (tasks, answer, kind_answer) in [
        (1, Answer::ok(0), Answer::refused(31)),
        (16, Answer::refused(1), Answer::refused(1)),
    ] {
        let mut table = [1u16, tasks, 0].map(u16::to_le_bytes).concat();
        for _ in 0..tasks {
            table.extend([1u32, 1].map(u32::to_le_bytes).concat());
            table.extend([0, 0]);
        }
        for layer in [&Proved as &dyn Layer, &Second] {
            let mut state = vec![0xff; STATE_BYTES];
            assert_eq!(layer.fresh(&table, &mut state), Answer::ok(0));
            state[last_server] = 9;
            assert_eq!(layer.is_sound(&state), answer);
            assert_eq!(layer.step(&mut state, unknown), kind_answer);
        }
    }
}
