//! The other examples that the owner marked.
//!
//! Assumes nothing.

use super::bench::*;
use second::bound::{bound, Bound};
use second::refusal::Refusal;
use second::state::Phase;
use second::step::Outcome;

#[test]
fn elapse_of_none_or_too_many_ticks() {
    let mut machine = Machine::new(1, 0, &[(5, 5)]);
    assert_eq!(machine.refuse(elapse(0)), 10);
    assert_eq!(machine.refuse(elapse(1_000_001)), 10);
    assert_eq!(machine.accept(elapse(1_000_000)), Outcome::Ok(0));
}

/// Server 0 executes task 0, which holds what tasks 1 and 2 wait for; their servers spin.
fn spinners(quota_of_two: u32) -> Machine {
    let mut machine = Machine::new(3, 1, &[(20, 20), (5, 20), (quota_of_two, 20)]);
    machine.start(&[0, 1, 2]);
    machine.accept_all(&[lock(0, 0), lock(1, 0), lock(2, 0)]);
    assert_eq!(machine.executor(0), Some(0));
    machine
}

#[test]
fn preempted_executor_passes_the_task_on() {
    let mut tied = spinners(5);
    assert_eq!(tied.accept(preempt(0)), Outcome::Ok(1));
    assert_eq!(tied.executor(0), Some(1));
    let mut richer = spinners(6);
    assert_eq!(richer.accept(preempt(0)), Outcome::Ok(1));
    assert_eq!(richer.executor(0), Some(2));
}

#[test]
fn lock_that_would_close_a_chain() {
    let mut machine = Machine::new(2, 2, &[(9, 9), (9, 9)]);
    machine.start(&[0, 1]);
    machine.accept_all(&[lock(0, 0), lock(1, 1)]);
    assert_eq!(machine.accept(lock(0, 1)), Outcome::Waits(task(1)));
    assert_eq!(machine.refuse(lock(1, 0)), 16);
}

#[test]
fn two_servers_of_one_task_reach_zero_together() {
    let mut machine = Machine::new(2, 1, &[(4, 9), (4, 9)]);
    machine.start(&[0, 1]);
    machine.accept_all(&[lock(0, 0), lock(1, 0)]);
    assert_eq!(machine.accept(elapse(4)), Outcome::Ok(2));
    assert_eq!(machine.state[server(0)].phase, Phase::Recharging);
    assert_eq!(machine.state[server(1)].phase, Phase::Recharging);
    assert_eq!(machine.executor(0), None);
    assert_eq!(machine.state[task(0)].executed, 4);
    assert_eq!(machine.state[server(1)].spin, 4);
}

#[test]
fn bounds_of_the_section_example() {
    let table = section_table(
        3,
        &[
            (0, 1, 5, None),
            (1, 0, 9, None),
            (1, 1, 4, Some(1)),
            (2, 0, 8, None),
            (2, 1, 3, Some(3)),
        ],
    );
    for (number, ticks, weighings) in [(0, 4, 4), (1, 18, 6), (2, 19, 6)] {
        let expected = Bound { ticks, weighings };
        assert_eq!(bound(&table, task(number), 1_000_000), Ok(expected));
    }
    assert_eq!(bound(&table, task(0), 3), Err(Refusal::AllowanceExceeded));
    assert_eq!(bound(&table, task(0), 4).map(|bound| bound.ticks), Ok(4));
}

#[test]
fn empty_trace() {
    assert_eq!(listing(&[]), "stop 0 32\n");
}
