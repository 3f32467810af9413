//! The rules on events, rule H and meter rows where they could be read otherwise.
//!
//! Assumes nothing.

use super::bench::*;
use second::meter::{read_meters, MeterRow};
use second::refusal::Refusal;
use second::state::{Mode, Phase, Table, CLOCK_LIMIT};
use second::step::Outcome;

/// Rule 10.2.
#[test]
fn executing_in_an_inherited_server_is_executing() {
    let mut machine = Machine::new(2, 2, &[(3, 9), (8, 9)]);
    machine.start(&[0, 1]);
    machine.accept_all(&[lock(0, 0), lock(1, 0), elapse(3)]);
    assert_eq!(machine.executor(0), Some(1));
    assert_eq!(machine.accept(lock(0, 1)), Outcome::Granted(resource(1)));
    assert_eq!(machine.refuse(suspend(1)), 62);
}

/// Task 0 declares nothing, task 1 resource 0 only.
fn closed_machine() -> Machine {
    let mut table: Table = open_table(1, 2, &[(5, 9), (5, 9)]);
    table.rows[0].declared = 0;
    table.rows[1].declared = 1;
    Machine::of(&table)
}

/// Rule 10.2.
#[test]
fn order_of_refusals() {
    let mut machine = closed_machine();
    assert_eq!(machine.refuse(lock(2, 2)), 2);
    assert_eq!(machine.refuse(lock(0, 2)), 3);
    assert_eq!(machine.refuse(lock(0, 0)), 4);
    assert_eq!(machine.refuse(lock(1, 0)), 61);
    assert_eq!(machine.refuse(unlock(2, 2)), 2);
    assert_eq!(machine.refuse(unlock(0, 2)), 3);
    assert_eq!(machine.refuse(unlock(0, 0)), 61);
    machine.start(&[1]);
    assert_eq!(machine.refuse(dispatch(0)), 7);
    machine.accept(wake(0));
    assert_eq!(machine.refuse(dispatch(0)), 8);
    assert_eq!(machine.refuse(wake(0)), 5);
    assert_eq!(machine.refuse(preempt(0)), 9);
    assert_eq!(machine.refuse(recharge(0)), 13);
    machine.state.clock = CLOCK_LIMIT;
    assert_eq!(machine.refuse(elapse(0)), 10);
    assert_eq!(machine.refuse(elapse(6)), 11);
    machine.state.clock = CLOCK_LIMIT - 6;
    assert_eq!(machine.refuse(elapse(6)), 12);
}

/// Rule 10.2.
#[test]
fn chains_of_any_length_close() {
    let rows = [(9, 9); 5];
    let mut machine = Machine::new(5, 5, &rows);
    machine.start(&[0, 1, 2, 3, 4]);
    machine.accept_all(&[lock(0, 0), lock(1, 1), lock(2, 2), lock(3, 3), lock(4, 4)]);
    machine.accept_all(&[lock(0, 1), lock(1, 2), lock(2, 3)]);
    assert_eq!(machine.accept(lock(3, 4)), Outcome::Waits(task(4)));
    for number in 0..4 {
        assert_eq!(machine.refuse(lock(4, number)), 16);
    }
    assert_eq!(machine.refuse(lock(4, 4)), 15);
}

/// Rule 10.3.
#[test]
fn unlock_of_what_is_not_owned() {
    let mut machine = closed_machine();
    machine.start(&[1]);
    assert_eq!(machine.refuse(unlock(1, 0)), 17);
    assert_eq!(machine.refuse(unlock(1, 1)), 17);
    let mut machine = Machine::new(2, 2, &[(9, 9), (9, 9)]);
    machine.start(&[0, 1]);
    machine.accept_all(&[lock(0, 0), lock(0, 1)]);
    assert_eq!(machine.refuse(unlock(1, 0)), 17);
    assert_eq!(machine.refuse(unlock(0, 0)), 18);
}

/// Rule 10.2.
#[test]
fn spinners_take_processors() {
    let mut machine = Machine::new(2, 1, &[(9, 9), (9, 9), (9, 9)]);
    machine.start(&[0, 1]);
    machine.accept_all(&[lock(0, 0), lock(1, 0), wake(2)]);
    assert_eq!(machine.refuse(dispatch(2)), 8);
    machine.accept(preempt(1));
    assert_eq!(machine.accept(dispatch(1)), Outcome::Spins(task(0)));
}

/// Task 0 holds what task 1 waits for, and went to sleep holding it.
fn sleeping_holder() -> Machine {
    let mut machine = Machine::new(2, 2, &[(9, 20), (5, 10), (4, 10)]);
    machine.start(&[0, 1]);
    machine.accept_all(&[lock(0, 0), lock(1, 0), elapse(2)]);
    assert_eq!(machine.accept(suspend(0)), Outcome::Ok(2));
    machine
}

/// Rule 7.1.
#[test]
fn wake_counts_inherited_servers_and_refills_each() {
    let mut machine = sleeping_holder();
    machine.accept(elapse(1));
    assert_eq!(machine.accept(wake(0)), Outcome::Ok(2));
    assert_eq!(machine.state[server(0)].budget, 9);
    assert_eq!(machine.state[server(0)].deadline, 23);
    assert_eq!(machine.state[server(1)].budget, 5);
    assert_eq!(machine.state[server(1)].deadline, 13);
}

/// Rule 7.1.
#[test]
fn recharging_servers_stay_as_they_are() {
    let mut machine = Machine::new(2, 1, &[(9, 20), (3, 10)]);
    machine.start(&[0, 1]);
    machine.accept_all(&[lock(0, 0), lock(1, 0), elapse(3)]);
    assert_eq!(machine.accept(suspend(0)), Outcome::Ok(1));
    assert_eq!(machine.state[server(1)].phase, Phase::Recharging);
    assert_eq!(machine.accept(wake(0)), Outcome::Ok(1));
    assert_eq!(machine.state[server(1)].budget, 0);
}

/// Rule 7.2.
#[test]
fn suspend_leaves_budget_and_deadline() {
    let machine = sleeping_holder();
    assert_eq!(machine.state[server(0)].budget, 7);
    assert_eq!(machine.state[server(1)].budget, 3);
    assert_eq!(machine.state[server(1)].deadline, 10);
    assert_eq!(machine.state[server(1)].phase, Phase::Idle);
}

/// Rule 7.6.
#[test]
fn recharge_to_idle_refills_too() {
    let mut machine = Machine::new(2, 1, &[(9, 20), (3, 10)]);
    machine.start(&[0, 1]);
    machine.accept_all(&[lock(0, 0), lock(1, 0), elapse(3), suspend(0)]);
    machine.accept(elapse(10));
    assert_eq!(machine.accept(recharge(1)), Outcome::Ok(0));
    assert_eq!(machine.state[server(1)].phase, Phase::Idle);
    assert_eq!(machine.state[server(1)].budget, 3);
    assert_eq!(machine.state[server(1)].deadline, 23);
}

/// Rule 7.5.
#[test]
fn elapse_with_nobody_running_and_up_to_the_limit() {
    let mut machine = Machine::new(1, 0, &[(5, 9)]);
    assert_eq!(machine.accept(elapse(7)), Outcome::Ok(0));
    assert_eq!(machine.state.clock, 7);
    machine.state.clock = CLOCK_LIMIT - 1;
    assert_eq!(machine.refuse(elapse(2)), 11);
    assert_eq!(machine.accept(elapse(1)), Outcome::Ok(0));
    assert_eq!(machine.accept(wake(0)), Outcome::Ok(1));
    assert_eq!(machine.state[server(0)].deadline, CLOCK_LIMIT + 9);
}

/// Rule 7.5.
#[test]
fn exhausted_servers_recharge_together_before_rule_h() {
    let mut machine = Machine::new(3, 1, &[(4, 9), (4, 9), (6, 9)]);
    machine.start(&[0, 1, 2]);
    machine.accept_all(&[lock(0, 0), lock(1, 0), lock(2, 0)]);
    assert_eq!(machine.accept(elapse(4)), Outcome::Ok(2));
    assert_eq!(machine.executor(0), Some(2));
    assert_eq!(machine.state[server(0)].deadline, 9);
    assert_eq!(machine.state[server(0)].own, 4);
    assert_eq!(machine.state[server(2)].spin, 4);
    assert_eq!(machine.state[server(2)].lent, 0);
}

/// Rule 7.4.
#[test]
fn preempt_answers_whether_a_task_passed() {
    let mut machine = Machine::new(2, 1, &[(9, 9), (9, 9)]);
    machine.start(&[0, 1]);
    machine.accept_all(&[lock(0, 0), lock(1, 0)]);
    assert_eq!(machine.accept(preempt(1)), Outcome::Ok(0));
    machine.accept(dispatch(1));
    assert_eq!(machine.accept(preempt(0)), Outcome::Ok(1));
    assert_eq!(machine.accept(preempt(1)), Outcome::Ok(0));
    assert_eq!(machine.executor(0), None);
}

/// Rule 7.8.
#[test]
fn lock_at_a_sleeping_end_makes_servers_idle() {
    let mut machine = sleeping_holder();
    machine.start(&[2]);
    machine.accept(elapse(1));
    assert_eq!(machine.accept(lock(2, 0)), Outcome::Waits(task(0)));
    assert_eq!(machine.state[server(2)].phase, Phase::Idle);
    assert_eq!(machine.state[server(2)].budget, 3);
    assert_eq!(machine.state[server(2)].deadline, 12);
    assert_eq!(machine.executor(2), None);
    assert_eq!(machine.accept(wake(0)), Outcome::Ok(3));
}

/// Rule 7.10.
#[test]
fn unlock_hands_over_in_order() {
    let mut machine = Machine::new(4, 2, &[(9, 9); 4]);
    machine.start(&[0, 1, 2, 3]);
    machine.accept_all(&[lock(0, 1), lock(2, 0), lock(2, 1), lock(1, 1), lock(3, 1)]);
    assert_eq!(machine.accept(unlock(0, 1)), Outcome::Passed(task(2)));
    assert_eq!(machine.state[task(2)].stack(), [resource(0), resource(1)]);
    assert_eq!(machine.state[task(2)].mode, Mode::Ready);
    assert_eq!(machine.state[resource(1)].waiters(), [task(1), task(3)]);
    assert_eq!(machine.served(1), 2);
    assert_eq!(machine.served(3), 2);
    assert_eq!(machine.accept(unlock(2, 1)), Outcome::Passed(task(1)));
    assert_eq!(machine.accept(unlock(1, 1)), Outcome::Passed(task(3)));
    assert_eq!(machine.accept(unlock(3, 1)), Outcome::Freed(resource(1)));
    // Places given up are 0 (rule 2.6).
    assert_eq!(machine.state[resource(1)].queue, [task(0); 16]);
    assert_eq!(machine.state[task(3)].held, [resource(0); 16]);
}

/// Rule 6.1.
#[test]
fn an_executor_that_lost_its_task_has_no_claim() {
    let mut machine = Machine::new(3, 1, &[(9, 9), (4, 9), (5, 9)]);
    machine.start(&[0, 1, 2]);
    machine.accept_all(&[lock(0, 0), lock(1, 0), lock(2, 0), preempt(0)]);
    assert_eq!(machine.executor(0), Some(2));
    assert_eq!(machine.accept(dispatch(0)), Outcome::Spins(task(0)));
    assert_eq!(machine.executor(0), Some(2));
}

/// Rule 6.2.
#[test]
fn executor_of_the_acting_task_takes_the_chain_end() {
    let mut machine = Machine::new(2, 1, &[(9, 9), (9, 9)]);
    machine.start(&[0, 1]);
    machine.accept_all(&[lock(0, 0), preempt(0)]);
    assert_eq!(machine.accept(lock(1, 0)), Outcome::Waits(task(0)));
    assert_eq!(machine.executor(0), Some(1));
    assert_eq!(machine.executor(1), None);
}

/// Rule 6.2.
#[test]
fn executor_stays_with_the_releaser_off_the_chain() {
    // Task 0 executes in server 2, which waits for its other resource, and passes 0 to task 1.
    let mut machine = Machine::new(3, 2, &[(9, 9), (3, 9), (9, 9)]);
    machine.start(&[0, 1, 2]);
    machine.accept_all(&[lock(0, 1), lock(0, 0), lock(1, 0), lock(2, 1), preempt(0)]);
    assert_eq!(machine.executor(0), Some(2));
    assert_eq!(machine.accept(unlock(0, 0)), Outcome::Passed(task(1)));
    assert_eq!(machine.executor(0), Some(2));
    assert_eq!(machine.executor(1), Some(1));
}

/// Rule 6.2.
#[test]
fn executor_takes_the_new_owner_before_a_richer_spinner() {
    let mut machine = Machine::new(3, 1, &[(9, 9), (4, 9), (8, 9)]);
    machine.start(&[0, 1]);
    machine.accept_all(&[lock(0, 0), lock(1, 0), preempt(0)]);
    machine.start(&[2]);
    machine.accept(lock(2, 0));
    assert_eq!(machine.executor(0), Some(1));
    assert_eq!(machine.accept(unlock(0, 0)), Outcome::Passed(task(1)));
    assert_eq!(machine.executor(1), Some(1));
}

/// Rule 6.3.
#[test]
fn releaser_left_by_its_server_gets_the_most_budget() {
    // Task 0 executes in server 1, the next owner's. Of its own server and that of task 2, which
    // waits for its other resource, the richer one takes it.
    for (own_quota, expected) in [(9, 0), (7, 2), (8, 0)] {
        let mut machine = Machine::new(3, 2, &[(own_quota, 9), (9, 9), (8, 9)]);
        machine.start(&[0]);
        machine.accept_all(&[lock(0, 1), lock(0, 0)]);
        machine.start(&[1, 2]);
        machine.accept_all(&[lock(2, 1), preempt(2), lock(1, 0), preempt(0)]);
        assert_eq!(machine.executor(0), Some(1));
        machine.accept_all(&[dispatch(0), dispatch(2)]);
        assert_eq!(machine.accept(unlock(0, 0)), Outcome::Passed(task(1)));
        assert_eq!(machine.executor(1), Some(1));
        assert_eq!(machine.executor(0), Some(expected));
    }
}

/// Rules 9.1, 9.2.
#[test]
fn rows_written_are_counted_and_others_stay() {
    let mut machine = Machine::new(1, 0, &[(5, 9), (6, 9)]);
    machine.start(&[1]);
    machine.accept(elapse(2));
    let stale = MeterRow {
        budget: 77,
        ..MeterRow::default()
    };
    let mut rows = [stale; 4];
    assert_eq!(read_meters(&machine.state, &mut rows), Ok(Outcome::Ok(2)));
    let expected = MeterRow {
        phase: Phase::Running,
        budget: 4,
        own: 2,
        lent: 0,
        spin: 0,
    };
    assert_eq!(rows[1], expected);
    assert_eq!(rows[0].budget, 5);
    assert_eq!(rows[2..], [stale; 2]);
    let just_enough = read_meters(&machine.state, &mut rows[..2]);
    assert_eq!(just_enough, Ok(Outcome::Ok(2)));
}

/// Rule 9.2.
#[test]
fn refused_rows_are_not_written() {
    let mut machine = Machine::new(1, 0, &[(5, 9), (6, 9)]);
    let mut rows = [MeterRow::default(); 1];
    let answer = read_meters(&machine.state, &mut rows);
    assert_eq!(answer, Err(Refusal::TooFewMeterRows));
    machine.state.processors = 0;
    let answer = read_meters(&machine.state, &mut rows);
    assert_eq!(answer, Err(Refusal::StateNotSound));
    assert_eq!(rows, [MeterRow::default()]);
}
