//! The library through its wrapper: what each function answers and leaves, refusals among them. Which answer is right is not asked here (the contracts
//! say it, and the cross-check compares); this shows that the calls arrive and come back whole.
use std::fs;
use std::panic::catch_unwind;
use std::path::Path;
use vesztamor::{
    bound, executing, fresh_into, is_sound, meter_into, replay, replay_into, step, text_bytes,
    Answer, Event, Phase, Row, State, ROW_BYTES, STATE_BYTES,
};

/// Two processors, two tasks with Q = 10 and P = 100, one resource that both declare.
fn table() -> Vec<u8> {
    let line = [10, 0, 0, 0, 100, 0, 0, 0, 1, 0];
    [&[2, 0, 2, 0, 1, 0][..], &line, &line].concat()
}

fn sections(tasks: u8, list: &[(u8, u8, u8, u8)]) -> Vec<u8> {
    let mut bytes = vec![tasks, 0, list.len() as u8, 0];
    for &(task, resource, length, parent) in list {
        bytes.extend([task, 0, resource, 0, length, 0, 0, 0, parent]);
    }
    bytes
}

fn example(name: &str) -> Vec<u8> {
    fs::read(
        Path::new(env!("CARGO_MANIFEST_DIR"))
            .join("../../examples")
            .join(name),
    )
    .unwrap()
}

#[test]
fn a_lock_is_waited_for_and_handed_over() {
    let mut state = State::fresh(&table()).unwrap();
    assert!(state.is_sound());
    let events = [
        (Event::Wake { task: 0 }, Answer::Ok(1)),
        (Event::Wake { task: 1 }, Answer::Ok(1)),
        (Event::Dispatch { server: 0 }, Answer::Executes(0)),
        (
            Event::Lock {
                task: 0,
                resource: 0,
            },
            Answer::Granted(0),
        ),
        (Event::Dispatch { server: 1 }, Answer::Executes(1)),
        (
            Event::Lock {
                task: 1,
                resource: 0,
            },
            Answer::Waits(0),
        ),
        (Event::Elapse { ticks: 3 }, Answer::Ok(0)),
        (
            Event::Unlock {
                task: 0,
                resource: 0,
            },
            Answer::Passed(1),
        ),
        (
            Event::Unlock {
                task: 1,
                resource: 0,
            },
            Answer::Freed(0),
        ),
        (Event::Preempt { server: 1 }, Answer::Ok(0)),
        (Event::Recharge { server: 1 }, Answer::Refused(13)),
        (Event::Suspend { task: 0 }, Answer::Ok(1)),
    ];
    for (event, answer) in events {
        assert_eq!(state.step(event), answer, "{event:?}");
        assert!(state.is_sound(), "{event:?}");
    }
    assert_eq!(state.executing(0), Answer::Ok(0));
}

/// A suspend, a lock of resource 0 and an unlock of it by a task: each gets this answer, and the state stays.
fn refuses(state: &mut State, task: u16, answer: Answer) {
    let before = state.clone();
    for event in [
        Event::Suspend { task },
        Event::Lock { task, resource: 0 },
        Event::Unlock { task, resource: 0 },
    ] {
        assert_eq!(state.step(event), answer, "{event:?}");
        assert!(*state == before, "{event:?}");
    }
}

#[test]
fn a_task_that_cannot_act_is_told_why() {
    // as `table`, with two resources
    let line = [10, 0, 0, 0, 100, 0, 0, 0, 3, 0];
    let mut state = State::fresh(&[&[2, 0, 2, 0, 2, 0][..], &line, &line].concat()).unwrap();
    refuses(&mut state, 0, Answer::Refused(61));
    for task in 0..2 {
        state.step(Event::Wake { task });
    }
    refuses(&mut state, 0, Answer::Refused(63));
    for (number, answer) in [(0, Answer::Granted(1)), (1, Answer::Waits(0))] {
        state.step(Event::Dispatch { server: number });
        let lock = Event::Lock {
            task: number,
            resource: 1,
        };
        assert_eq!(state.step(lock), answer);
    }
    refuses(&mut state, 1, Answer::RefusedWaiting(1));
}

#[test]
fn a_number_that_is_no_answer_is_not_read_as_one() {
    for packed in [8 << 56, 1 << 32, 4 << 56 | 1 << 32, 7 << 56 | 1 << 32 | 61] {
        assert!(
            catch_unwind(|| Answer::of(packed)).is_err(),
            "{packed:#x} is read"
        );
    }
}

#[test]
fn a_fresh_state_lies_as_its_page_says() {
    // docs/STATE.md
    let mut expected = [0; STATE_BYTES];
    expected[..6].copy_from_slice(&[2, 0, 2, 0, 1, 0]);
    for i in 0..2 {
        let (server, task) = (10 + 29 * i, 474 + 46 * i);
        expected[server + 1] = 10;
        expected[server + 9] = 10;
        expected[server + 13] = 100;
        expected[task + 6] = 1;
    }
    assert!(State::fresh(&table()).unwrap().bytes == expected);
}

#[test]
fn a_server_executes_or_spins() {
    let mut state = State::fresh(&table()).unwrap();
    for number in [0, 1] {
        state.step(Event::Wake { task: number });
        state.step(Event::Dispatch { server: number });
        state.step(Event::Lock {
            task: number,
            resource: 0,
        });
    }
    assert_eq!(state.executing(0), Answer::Executes(0));
    assert_eq!(state.executing(1), Answer::Spins(0));
    assert_eq!(state.executing(16), Answer::Ok(0));
    assert_eq!(state.executing(65535), Answer::Ok(0));
}

/// Two servers run for task 0, which holds the resource; five ticks have passed.
fn contended() -> State {
    let mut state = State::fresh(&table()).unwrap();
    for number in 0..2 {
        for event in [
            Event::Wake { task: number },
            Event::Dispatch { server: number },
            Event::Lock {
                task: number,
                resource: 0,
            },
        ] {
            state.step(event);
        }
    }
    state.step(Event::Elapse { ticks: 5 });
    state
}

#[test]
fn a_row_is_its_servers() {
    let rows = contended().meter().unwrap();
    let row = |own, spin| Row {
        phase: Phase::Running,
        budget: 5,
        own,
        lent: 0,
        spin,
    };
    assert_eq!(rows, [row(5, 0), row(0, 5)]);
}

#[test]
fn rows_lie_as_their_page_says_and_others_stay() {
    // docs/STATE.md
    let mut bytes = [7; 3 * ROW_BYTES + 17];
    assert_eq!(meter_into(&contended().bytes, &mut bytes), Answer::Ok(2));
    assert_eq!(
        bytes[..17],
        [2, 5, 0, 0, 0, 5, 0, 0, 0, 0, 0, 0, 0, 0, 0, 0, 0]
    );
    assert_eq!(
        bytes[17..34],
        [2, 5, 0, 0, 0, 0, 0, 0, 0, 0, 0, 0, 0, 5, 0, 0, 0]
    );
    assert!(bytes[34..].iter().all(|&b| b == 7));
}

#[test]
fn refused_rows_are_left_alone() {
    let state = contended();
    let mut unsound = state.clone();
    unsound.bytes[0] = 0;
    let (whole, short) = (2 * ROW_BYTES, ROW_BYTES);
    for (given, room, number) in [
        (&state.bytes[..], whole - 1, 0),
        (&state.bytes[..], whole + 1, 0),
        (&state.bytes[1..], whole - 1, 0),
        (&state.bytes[1..], whole, 1),
        (&unsound.bytes[..], whole, 1),
        (&unsound.bytes[..], short, 1),
        (&state.bytes[..], short, 22),
        (&state.bytes[..], 0, 22),
    ] {
        let mut rows = vec![7; room];
        assert_eq!(
            meter_into(given, &mut rows),
            Answer::Refused(number),
            "{room} bytes"
        );
        assert!(rows.iter().all(|&b| b == 7));
    }
    assert_eq!(unsound.meter(), Err(1));
}

#[test]
fn a_refusal_writes_nothing() {
    let mut state = State::fresh(&table()).unwrap();
    let before = state.clone();
    assert_eq!(state.step(Event::Wake { task: 2 }), Answer::Refused(2));
    for kind in [0, 9, 16, 17, 65535] {
        assert_eq!(step(&mut state.bytes, kind, 0, 0, 0), Answer::Refused(31));
    }
    assert!(state == before);
    for length in [0, 1, STATE_BYTES - 1, STATE_BYTES + 1] {
        let mut bytes = vec![7; length];
        assert_eq!(fresh_into(&table(), &mut bytes), Answer::Refused(0));
        assert_eq!(step(&mut bytes, 1, 0, 0, 0), Answer::Refused(1));
        assert_eq!(is_sound(&bytes), Answer::Refused(1));
        assert_eq!(executing(&bytes, 0), Answer::Refused(1));
        assert!(bytes.iter().all(|&b| b == 7));
    }
    let mut bytes = [7; STATE_BYTES];
    assert_eq!(step(&mut bytes, 0, 0, 0, 0), Answer::Refused(1));
    for table in [
        &table()[..25],
        &[table(), vec![0]].concat(),
        &[][..],
        &[9, 0, 0, 0, 0, 0],
    ] {
        assert_eq!(fresh_into(table, &mut bytes), Answer::Refused(19));
    }
    assert!(bytes.iter().all(|&b| b == 7));
}

#[test]
fn a_bound_comes_with_its_weighings() {
    // docs/PROVED.md, "Not claimed"
    let nine = [
        (0, 2, 1, 255),
        (1, 0, 20, 255),
        (1, 2, 4, 1),
        (1, 1, 20, 255),
        (1, 2, 4, 3),
        (2, 0, 20, 255),
        (2, 1, 10, 5),
        (2, 2, 7, 6),
        (2, 2, 6, 5),
    ];
    let table = sections(3, &nine);
    assert_eq!(bound(&table, 0, 1000), Ok((7, 8)));
    assert_eq!(bound(&table, 0, 8), Ok((7, 8)));
    assert_eq!(bound(&table, 0, 7), Err(46));
    assert_eq!(bound(&table, 0, 0), Err(45));
    assert_eq!(bound(&table, 3, 1000), Err(44));
    assert_eq!(
        bound(
            &sections(2, &[(0, 0, 5, 255), (0, 1, 4, 0), (0, 2, 4, 0)]),
            0,
            1000
        ),
        Err(43)
    );
    assert_eq!(
        bound(&sections(2, &[(0, 1, 5, 255), (0, 0, 4, 0)]), 0, 1000),
        Err(42)
    );
    assert_eq!(bound(&sections(2, &[(0, 0, 5, 254)]), 0, 1000), Err(41));
    assert_eq!(bound(&sections(7, &[]), 0, 1000), Err(40));
    assert_eq!(bound(&table[..table.len() - 1], 0, 1000), Err(40));
}

#[test]
fn a_listing_is_the_stored_one() {
    for name in ["incident", "above-the-bound"] {
        let listing = replay(&example(&format!("{name}.trace")));
        assert!(listing == example(&format!("{name}.listing")), "{name}");
    }
}

#[test]
fn a_short_buffer_is_left_alone_and_a_long_one_past_the_text() {
    let trace = example("incident.trace");
    let mut short = vec![7; text_bytes(trace.len()) - 1];
    assert_eq!(replay_into(&trace, &mut short), None);
    assert!(short.iter().all(|&b| b == 7));
    let mut long = vec![7; text_bytes(trace.len()) + 9];
    let length = replay_into(&trace, &mut long).unwrap();
    assert!(long[..length] == replay(&trace));
    assert!(long[length..].iter().all(|&b| b == 7));
}
