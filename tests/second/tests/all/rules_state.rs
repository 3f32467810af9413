//! The rules on the state, soundness and the chain end where they could be read otherwise.
//!
//! Assumes nothing.

use super::bench::*;
use second::refusal::Refusal;
use second::state::{fresh, Clause, Execution, Mode, Phase, State, Table, TaskNumber, CLOCK_LIMIT};
use second::step::step;

/// Tasks 0 and 1 execute; 0 holds 0 and 1, 1 holds 2.
fn two_holders() -> State {
    let mut machine = Machine::new(3, 4, &[(9, 9), (9, 9), (9, 9)]);
    machine.start(&[0, 1]);
    machine.accept_all(&[lock(0, 0), lock(0, 1), lock(1, 2), elapse(3)]);
    machine.state
}

/// The clauses that a change to the state breaks.
fn broken_by(change: impl Fn(&mut State)) -> Vec<Clause> {
    let mut state = two_holders();
    change(&mut state);
    state.broken_clauses()
}

/// Rule 4.14.
#[test]
fn executor_must_be_running_and_serving() {
    let wrong = [Clause::ExecutesOnlyWhereServed];
    assert_eq!(
        broken_by(|state| state[task(2)].runs = Some(server(2))),
        wrong
    );
    assert_eq!(
        broken_by(|state| state[task(1)].runs = Some(server(0))),
        wrong
    );
    let nobody = [Clause::ServedByRunningExecutes];
    assert_eq!(broken_by(|state| state[task(1)].runs = None), nobody);
}

/// Rule 4.1.
#[test]
fn sizes_include_the_clock() {
    let past_limit = |state: &mut State| state.clock = CLOCK_LIMIT + 1;
    assert_eq!(broken_by(past_limit), [Clause::ClockInRange]);
    assert_eq!(broken_by(|state| state.clock = CLOCK_LIMIT), []);
    let swapped = |state: &mut State| state[server(0)].period = 8;
    assert_eq!(broken_by(swapped), [Clause::ReservationsInRange]);
}

/// Rule 4.3.
#[test]
fn deadlines_may_be_long_past() {
    assert_eq!(broken_by(|state| state[server(0)].deadline = 0), []);
    assert_eq!(broken_by(|state| state[server(0)].deadline = 12), []);
    let late = |state: &mut State| state[server(0)].deadline = 13;
    assert_eq!(broken_by(late), [Clause::DeadlinesWithinPeriod]);
}

/// Rule 4.13.
#[test]
fn idle_goes_by_the_chain_end() {
    let mut machine = Machine {
        state: two_holders(),
    };
    machine.accept_all(&[lock(1, 0), suspend(0)]);
    assert_eq!(machine.state[server(1)].phase, Phase::Idle);
    machine.state[server(1)].phase = Phase::Active;
    let broken = machine.state.broken_clauses();
    assert_eq!(broken, [Clause::IdleExactlyWhenServedSleeps]);
    machine.state[server(1)].phase = Phase::Recharging;
    machine.state[server(1)].budget = 0;
    assert!(machine.state.is_sound());
    let idle_too_soon = |state: &mut State| {
        state[server(1)].phase = Phase::Idle;
        state[task(1)].runs = None;
    };
    assert_eq!(
        broken_by(idle_too_soon),
        [Clause::IdleExactlyWhenServedSleeps]
    );
}

/// Rule 4.16.
#[test]
fn accounts_and_their_sum() {
    let too_much = |state: &mut State| state[task(2)].executed = 4;
    assert_eq!(broken_by(too_much), [Clause::AccountsWithinClock]);
    let sums: [fn(&mut State); 2] = [
        |state| state[server(0)].lent = 1,
        |state| state[server(0)].spin = 1,
    ];
    for sum in sums {
        assert_eq!(broken_by(sum), [Clause::ServerTotalsWithinClock]);
    }
    // A server's account above the clock puts the sum above it too.
    let each: [fn(&mut State); 3] = [
        |state| state[server(2)].own = 4,
        |state| state[server(2)].lent = 4,
        |state| state[server(2)].spin = 4,
    ];
    let both = [Clause::AccountsWithinClock, Clause::ServerTotalsWithinClock];
    for account in each {
        assert_eq!(broken_by(account), both);
    }
    let unequal_totals = |state: &mut State| state[server(2)].lent = 3;
    assert_eq!(broken_by(unequal_totals), []);
}

/// Rules 4.8, 4.9.
#[test]
fn orders_are_free_and_membership_is_exact() {
    assert_eq!(broken_by(|state| state[task(0)].held.swap(0, 1)), []);
    let stacks = [Clause::StacksAgreeWithOwners];
    let twice = |state: &mut State| state[task(0)].held[1] = resource(0);
    assert_eq!(broken_by(twice), stacks);
    let one_again = |state: &mut State| {
        state[task(0)].held[2] = resource(0);
        state[task(0)].depth = 3;
    };
    assert_eq!(broken_by(one_again), stacks);
    let missing = |state: &mut State| state[task(0)].depth = 1;
    assert_eq!(broken_by(missing), stacks);
    let past_counts = |state: &mut State| state[resource(3)].owner = Some(task(3));
    assert_eq!(broken_by(past_counts), stacks);
    let stranger = |state: &mut State| state[resource(0)].waiting = 1;
    assert_eq!(broken_by(stranger), [Clause::QueuesAgreeWithWaits]);
    let unowned = |state: &mut State| {
        state[task(1)].mode = Mode::Waiting(resource(3));
        state[resource(3)].queue[0] = task(1);
        state[resource(3)].waiting = 1;
    };
    assert_eq!(broken_by(unowned), [Clause::UnownedHaveNoQueue]);
}

/// Rule 4.7.
#[test]
fn a_stack_is_no_deeper_than_the_resources() {
    let mut machine = Machine::new(1, 16, &[(9, 9)]);
    machine.start(&[0]);
    for number in 0..16 {
        machine.accept(lock(0, number));
    }
    machine.state[task(0)].depth = 17;
    let broken = machine.state.broken_clauses();
    assert_eq!(broken, [Clause::StacksAgreeWithOwners]);
}

/// Rule 4.9.
#[test]
fn a_waiter_stands_in_its_queue_once() {
    let mut machine = Machine {
        state: two_holders(),
    };
    machine.accept(lock(1, 0));
    machine.state[resource(0)].queue[1] = task(1);
    machine.state[resource(0)].waiting = 2;
    let broken = machine.state.broken_clauses();
    assert_eq!(broken, [Clause::QueuesAgreeWithWaits]);
}

/// Rule 1.7.
#[test]
fn unread_places_may_hold_anything() {
    let stray = |state: &mut State| {
        state[task(0)].held[2] = resource(99);
        state[resource(0)].queue[0] = task(99);
        state[task(3)].runs = Some(server(99));
        state[task(3)].executed = u32::MAX;
        state[server(3)].phase = Phase::Running;
        state[resource(4)].owner = Some(task(99));
        state[resource(4)].waiting = 99;
    };
    assert_eq!(broken_by(stray), []);
    let past_counts = |state: &mut State| state[task(2)].runs = Some(server(3));
    assert_eq!(broken_by(past_counts), [Clause::ExecutesOnlyWhereServed]);
}

/// Rule 1.7.
#[test]
fn entries_past_the_counts_are_not_changed() {
    let mut state = two_holders();
    state[task(3)].runs = Some(server(99));
    state[server(3)].budget = 77;
    let mut machine = Machine { state };
    machine.accept_all(&[unlock(0, 1), elapse(1), preempt(0), preempt(1)]);
    assert_eq!(machine.state[task(3)].runs, Some(server(99)));
    assert_eq!(machine.state[server(3)].budget, 77);
}

/// Rules 2.2, 2.3.
#[test]
fn suspended_task_may_hold_and_be_waited_for() {
    let mut machine = Machine {
        state: two_holders(),
    };
    machine.accept_all(&[lock(1, 1), suspend(0)]);
    assert_eq!(machine.state[task(0)].depth, 2);
    assert_eq!(machine.state[resource(1)].waiting, 1);
}

/// Rule 4.12.
#[test]
fn chains_that_close() {
    let waits_for_itself = |state: &mut State| {
        state[task(1)].mode = Mode::Waiting(resource(2));
        state[resource(2)].queue[0] = task(1);
        state[resource(2)].waiting = 1;
    };
    assert_eq!(broken_by(waits_for_itself), [Clause::NoChainCloses]);
    let mut state = two_holders();
    waits_for_itself(&mut state);
    let refusal = step(&mut state, wake(2));
    assert_eq!(refusal, Err(Refusal::StateNotSound));
}

/// Rule 5.1.
#[test]
fn rows_past_the_tasks_are_ignored() {
    let mut table: Table = open_table(1, 1, &[(5, 9)]);
    let (clean, _) = fresh(&table);
    table.rows[1].declared = 0xffff;
    assert_eq!(fresh(&table), (clean, Ok(())));
    assert_eq!(clean[server(1)].quota, 0);
}

/// Rule 5.5.
#[test]
fn refused_fresh_is_of_no_use() {
    let mut table: Table = open_table(1, 1, &[(5, 9), (6, 5)]);
    let (state, answer) = fresh(&table);
    assert_eq!(answer, Err(Refusal::QuotaOrPeriodOutOfRange));
    assert_eq!((state.processors, state.tasks, state.resources), (0, 0, 0));
    assert_eq!(state, State::default());
    assert!(!state.is_sound());
    table.rows[0].declared = 2;
    let (_, answer) = fresh(&table);
    assert_eq!(answer, Err(Refusal::DeclaredResourceAbsent));
    table.counts.processors = 9;
    let (_, answer) = fresh(&table);
    assert_eq!(answer, Err(Refusal::CountsOutOfRange));
}

/// Rule 3.2.
#[test]
fn chain_end_of_any_number_in_any_state() {
    let mut state = two_holders();
    assert_eq!(state.chain_end(task(3)), task(3));
    assert_eq!(state.chain_end(task(65535)), task(65535));
    state[task(0)].mode = Mode::Waiting(resource(2));
    state[task(1)].mode = Mode::Waiting(resource(0));
    assert_eq!(state.chain_end(task(0)), task(0));
    assert_eq!(state.chain_end(task(1)), task(1));
    state[task(2)].mode = Mode::Waiting(resource(0));
    assert_eq!(state.chain_end(task(2)), TaskNumber(1));
}

/// Rule 3.4.
#[test]
fn what_a_server_does() {
    let mut machine = Machine {
        state: two_holders(),
    };
    machine.accept(lock(1, 0));
    let executing = |number: u16| machine.state.executing(server(number));
    assert_eq!(executing(0), Execution::Executes(task(0)));
    assert_eq!(executing(1), Execution::Spins(task(0)));
    assert_eq!(executing(2), Execution::NotRunning);
    assert_eq!(executing(99), Execution::NotRunning);
}
