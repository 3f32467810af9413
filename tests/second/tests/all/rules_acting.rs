//! Who may not suspend itself, lock or unlock, and why (rule 10.2): a task that is suspended (61), one
//! that waits, with the resource that it awaits (62), and one that no Running server serves (63).
//!
//! Assumes nothing.

use super::bench::*;
use second::refusal::Refusal;
use second::state::{Phase, Table};
use second::step::{Event, Outcome};

/// What all three events of a task are refused with; they name this resource.
fn refused_all(machine: &mut Machine, by: u16, of: u16) -> Refusal {
    let refusal = machine.refusal(suspend(by));
    assert_eq!(machine.refusal(lock(by, of)), refusal);
    assert_eq!(machine.refusal(unlock(by, of)), refusal);
    refusal
}

#[test]
fn numbers_and_what_follows_them() {
    for (refusal, number, follows) in [
        (Refusal::TaskSuspended, 61, None),
        (Refusal::TaskWaiting(resource(0)), 62, Some(0)),
        (Refusal::TaskWaiting(resource(15)), 62, Some(15)),
        (Refusal::TaskNotServed, 63, None),
        (Refusal::NotOwned, 17, None),
    ] {
        assert_eq!((refusal.number(), refusal.follows()), (number, follows));
    }
}

#[test]
fn a_suspended_task() {
    let mut machine = Machine::new(2, 1, &[(3, 9), (8, 9)]);
    assert_eq!(refused_all(&mut machine, 0, 0), Refusal::TaskSuspended);
    // It falls asleep in another's server, while its own recharges.
    machine.start(&[0, 1]);
    machine.accept_all(&[lock(0, 0), lock(1, 0), elapse(3), suspend(0)]);
    assert_eq!(machine.state[server(0)].phase, Phase::Recharging);
    assert_eq!(refused_all(&mut machine, 0, 0), Refusal::TaskSuspended);
}

/// Task 0 holds 0 and waits for 1, whose owner, task 1, waits for 2, which task 2 holds.
fn two_links() -> Machine {
    let mut machine = Machine::new(3, 3, &[(9, 9), (9, 9), (9, 9)]);
    machine.start(&[0, 1, 2]);
    machine.accept_all(&[lock(0, 0), lock(1, 1), lock(2, 2), lock(1, 2)]);
    assert_eq!(machine.accept(lock(0, 1)), Outcome::Waits(task(2)));
    machine
}

/// It is told with what it awaits itself: not with the chain's last, nor with the event's.
#[test]
fn a_waiting_task_names_what_it_awaits() {
    let mut machine = two_links();
    for of in 0..3 {
        let refusal = refused_all(&mut machine, 0, of);
        assert_eq!(refusal, Refusal::TaskWaiting(resource(1)));
        let refusal = refused_all(&mut machine, 1, of);
        assert_eq!(refusal, Refusal::TaskWaiting(resource(2)));
    }
}

/// Whatever its own server does, and also where it awaits resource 0.
#[test]
fn a_waiting_task_with_a_server_in_each_phase() {
    let waits_for_first = Refusal::TaskWaiting(resource(0));
    let mut machine = Machine::new(2, 1, &[(9, 20), (3, 10)]);
    machine.start(&[0, 1]);
    machine.accept_all(&[lock(0, 0), lock(1, 0)]);
    let events: [&[Event]; 4] = [
        &[],
        &[preempt(1)],
        &[dispatch(1), elapse(3)],
        &[elapse(5), suspend(0), elapse(2), recharge(1)],
    ];
    let phases = [
        Phase::Running,
        Phase::Active,
        Phase::Recharging,
        Phase::Idle,
    ];
    for (events, phase) in events.into_iter().zip(phases) {
        machine.accept_all(events);
        assert_eq!(machine.state[server(1)].phase, phase);
        assert_eq!(refused_all(&mut machine, 1, 0), waits_for_first);
    }
}

#[test]
fn a_task_that_no_running_server_serves() {
    let mut machine = Machine::new(2, 1, &[(3, 9), (8, 9)]);
    machine.accept(wake(0));
    assert_eq!(refused_all(&mut machine, 0, 0), Refusal::TaskNotServed);
    machine.accept_all(&[dispatch(0), lock(0, 0)]);
    machine.start(&[1]);
    // Its own server recharges, and the one that it inherits is Active.
    machine.accept_all(&[lock(1, 0), elapse(3), preempt(1)]);
    assert_eq!(machine.state[server(0)].phase, Phase::Recharging);
    assert_eq!(refused_all(&mut machine, 0, 0), Refusal::TaskNotServed);
    // A Running server that it inherits is enough.
    assert_eq!(machine.accept(dispatch(1)), Outcome::Executes(task(0)));
    assert_eq!(machine.accept(unlock(0, 0)), Outcome::Passed(task(1)));
    // The server runs on, for its own task.
    assert_eq!(machine.state[server(1)].phase, Phase::Running);
    assert_eq!(refused_all(&mut machine, 0, 0), Refusal::TaskNotServed);
}

/// Task 0 declares resources 0 to 2 of four.
fn partly_closed(tasks: usize) -> Machine {
    let mut table: Table = open_table(3, 4, &[(9, 9), (9, 9), (9, 9)][..tasks]);
    table.rows[0].declared = 7;
    Machine::of(&table)
}

/// 2, 3 and 4 come before the three of them; unlock has no 4.
fn check_earlier(machine: &mut Machine, number: u16) {
    let past = machine.state.tasks;
    assert_eq!(machine.refuse(suspend(past)), 2);
    assert_eq!(machine.refuse(lock(past, 4)), 2);
    assert_eq!(machine.refuse(unlock(past, 4)), 2);
    assert_eq!(machine.refuse(lock(0, 4)), 3);
    assert_eq!(machine.refuse(unlock(0, 4)), 3);
    assert_eq!(machine.refuse(lock(0, 3)), 4);
    assert_eq!(machine.refuse(unlock(0, 3)), number);
}

/// For a task 0 that holds 0 and then 2: before 15 (0 is its own), 17 (1 is not) and 18 (0 is not
/// its latest).
fn check_later(machine: &mut Machine, number: u16) {
    assert_eq!(machine.state[task(0)].stack(), [resource(0), resource(2)]);
    assert_eq!(machine.refuse(lock(0, 0)), number);
    assert_eq!(machine.refuse(unlock(0, 1)), number);
    assert_eq!(machine.refuse(unlock(0, 0)), number);
}

#[test]
fn order_of_refusals_asleep_and_ready() {
    let mut machine = partly_closed(2);
    check_earlier(&mut machine, 61);
    machine.start(&[0, 1]);
    machine.accept_all(&[lock(0, 0), lock(0, 2), lock(1, 1), lock(1, 0)]);
    // While it acts, the later ones are told. Task 1 holds 1 and waits for task 0.
    assert_eq!(machine.refuse(lock(0, 0)), 15);
    assert_eq!(machine.refuse(lock(0, 1)), 16);
    assert_eq!(machine.refuse(unlock(0, 1)), 17);
    assert_eq!(machine.refuse(unlock(0, 0)), 18);
    machine.accept(suspend(0));
    for number in [61, 63] {
        check_earlier(&mut machine, number);
        check_later(&mut machine, number);
        assert_eq!(machine.refuse(lock(0, 1)), number, "before 16");
        if number == 61 {
            machine.accept(wake(0));
        }
    }
}

/// A task that waits ends no chain, so that 16 cannot be met here.
#[test]
fn order_of_refusals_waiting() {
    let mut machine = partly_closed(2);
    machine.start(&[0, 1]);
    machine.accept_all(&[lock(0, 0), lock(0, 2), lock(1, 1), lock(0, 1)]);
    check_earlier(&mut machine, 62);
    check_later(&mut machine, 62);
}

/// Only the line of a waiting task has a fourth field.
#[test]
fn lines_of_a_replay() {
    let table = open_table(2, 2, &[(9, 9), (9, 9)]);
    let mut pieces = vec![counts(2, 2, 2)];
    let rows = table.used_rows().iter();
    pieces.extend(rows.map(|one| row(one.quota, one.period, one.declared)));
    let events = [
        suspend(0),
        wake(0),
        lock(0, 0),
        dispatch(0),
        lock(0, 1),
        wake(1),
        dispatch(1),
        lock(1, 0),
        lock(0, 0),
        unlock(0, 1),
        lock(0, 9),
    ];
    pieces.extend(events.map(event));
    let text = listing(&pieces);
    let lines: Vec<&str> = text.lines().take(events.len()).collect();
    let expected = [
        "1 refused 61",
        "2 ok 1",
        "3 refused 63",
        "4 executes 0",
        "5 granted 1",
        "6 ok 1",
        "7 executes 1",
        "8 granted 0",
        "9 waits 1",
        "10 refused 62 0",
        "11 refused 3",
    ];
    assert_eq!(lines, expected);
}
