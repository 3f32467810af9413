//! Slips that other builds of this layer made.
//!
//! Assumes nothing. A third one, line 27 as printed, stands in `figure_five.rs`.

use super::bench::*;
use second::state::{Execution, Phase};
use second::step::Outcome;

/// Rule 7.10: what waits behind the heir, though for another resource, goes to the heir too.
#[test]
fn unlock_moves_whole_chains() {
    let (a, b, c) = (0, 1, 2);
    let mut machine = Machine::new(3, 3, &[(9, 9), (9, 9), (9, 9)]);
    machine.start(&[a, b, c]);
    machine.accept_all(&[lock(a, 1), lock(b, 2), lock(c, 2), lock(b, 1)]);
    assert_eq!(machine.served(c), a);
    assert_eq!(machine.accept(unlock(a, 1)), Outcome::Passed(task(b)));
    assert_eq!(machine.served(c), b);
    assert_eq!(machine.served(b), b);
    assert_eq!(machine.executor(a), Some(a));
    assert_eq!(machine.executor(b), Some(b));
    assert_eq!(
        machine.state.executing(server(c)),
        Execution::Spins(task(b))
    );
}

/// The same with the waiters' servers alone on the processors: C's server takes B with it.
#[test]
fn executor_goes_along_a_whole_chain() {
    let (a, b, c) = (0, 1, 2);
    let mut machine = Machine::new(3, 3, &[(9, 9), (9, 9), (9, 9)]);
    machine.start(&[a, b, c]);
    machine.accept_all(&[lock(a, 1), lock(b, 2), lock(c, 2), lock(b, 1)]);
    machine.accept_all(&[preempt(a), preempt(b)]);
    assert_eq!(machine.executor(a), Some(c));
    assert_eq!(machine.accept(unlock(a, 1)), Outcome::Passed(task(b)));
    assert_eq!(machine.executor(b), Some(c));
    assert_eq!(machine.executor(a), None);
}

/// Rule 6.3: a task that gave its server away goes to Running servers only.
#[test]
fn releasing_task_is_not_sent_to_a_recharging_server() {
    let (holder, waiter) = (0, 1);
    let mut machine = Machine::new(2, 1, &[(3, 9), (8, 9)]);
    machine.start(&[holder, waiter]);
    machine.accept_all(&[lock(holder, 0), lock(waiter, 0), elapse(3)]);
    assert_eq!(machine.state[server(holder)].phase, Phase::Recharging);
    assert_eq!(machine.executor(holder), Some(waiter));
    machine.accept(elapse(2));
    assert_eq!(machine.state[server(waiter)].lent, 2);
    assert_eq!(
        machine.accept(unlock(holder, 0)),
        Outcome::Passed(task(waiter))
    );
    assert_eq!(machine.executor(waiter), Some(waiter));
    assert_eq!(machine.executor(holder), None);
    assert_eq!(machine.state[server(holder)].phase, Phase::Recharging);
    assert_eq!(machine.refuse(suspend(holder)), 63);
}
