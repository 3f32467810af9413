//! Case R, the worked example that came with the rules, to the byte, and its last state with the
//! clock moved.
//!
//! Assumes nothing; `case_r.listing` is the listing that came with it.

use super::bench::*;
use second::generate::runs::Run;
use second::replay::replay;
use second::state::{fresh, State};
use second::step::{step, Event, Outcome};

const LISTING: &[u8] = include_bytes!("case_r.listing");

pub fn case_r() -> Run {
    Run {
        table: open_table(2, 1, &[(10, 20), (8, 20), (6, 30)]),
        events: vec![
            wake(2),
            dispatch(2),
            lock(2, 0),
            wake(0),
            dispatch(0),
            elapse(2),
            lock(0, 0),
            elapse(4),
            wake(1),
            dispatch(1),
            recharge(2),
            elapse(1),
            unlock(2, 0),
            unlock(0, 0),
            suspend(0),
            dispatch(2),
        ],
    }
}

fn last_state() -> State {
    let run = case_r();
    let (mut state, _) = fresh(&run.table);
    for event in run.events {
        // Two events of the case are refused, which its listing shows.
        let _ = step(&mut state, event);
    }
    state
}

#[test]
fn listing_to_the_byte() {
    let listing = replay(&case_r().trace());
    assert_eq!(
        String::from_utf8_lossy(&listing),
        String::from_utf8_lossy(LISTING)
    );
    assert_eq!(listing, LISTING);
}

#[test]
fn last_state_recharges_at_its_deadline() {
    let recharge_two: Event = recharge(2);
    let mut early = last_state();
    early.clock = 29;
    assert_eq!(Machine { state: early }.refuse(recharge_two), 14);
    let mut due = last_state();
    due.clock = 30;
    assert_eq!(Machine { state: due }.accept(recharge_two), Outcome::Ok(1));
}
