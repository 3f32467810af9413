//! The generators reach all that they should, and their cases are what they say.
//!
//! Assumes nothing.

use second::generate::random::Random;
use second::generate::runs::Run;
use second::generate::sections::{good_question, tight_questions};
use second::generate::states::broken_state;
use second::generate::survey::survey;
use second::refusal::Refusal;
use second::replay::replay;
use second::state::{fresh, Clause};
use second::step::step;

#[test]
fn everything_wanted_is_reached() {
    const SEED: u64 = 1;
    const ROUNDS: u64 = 250;
    let coverage = survey(SEED, ROUNDS);
    assert_eq!(coverage.missing(), Vec::<String>::new());
}

#[test]
fn broken_states_break_one_clause() {
    for (seed, clause) in (0..).zip(Clause::ALL) {
        let state = broken_state(&mut Random::new(seed), clause);
        assert_eq!(state.broken_clauses(), [clause]);
        assert!(!state.is_sound());
    }
}

#[test]
fn same_seed_same_run() {
    let traces = [3, 3, 4].map(|seed| Run::any(seed, 60).trace());
    assert_eq!(traces[0], traces[1]);
    assert_ne!(traces[0], traces[2]);
}

/// A trace replays to the answers of its events, one line each, and then the end.
#[test]
fn traces_replay_to_their_answers() {
    for seed in 0..150 {
        let run = Run::any(seed, 80);
        let text = String::from_utf8(replay(&run.trace())).expect("a listing is text");
        let mut lines = text.lines();
        let (mut state, _) = fresh(&run.table);
        for (number, &event) in (1..).zip(&run.events) {
            let expected = match step(&mut state, event) {
                Ok(outcome) => format!("{number} {} {}", outcome.word(), outcome.number()),
                Err(Refusal::TaskWaiting(awaited)) => format!("{number} refused 62 {}", awaited.0),
                Err(refusal) => format!("{number} refused {}", refusal.number()),
            };
            assert_eq!(lines.next(), Some(expected.as_str()), "seed {seed}");
        }
        assert_eq!(lines.next(), Some(format!("end {}", state.clock).as_str()));
        assert_eq!(lines.count(), 2 * usize::from(run.table.counts.tasks));
    }
}

#[test]
fn allowance_is_exceeded_exactly_above_the_count() {
    let mut random = Random::new(8);
    for _ in 0..300 {
        let question = good_question(&mut random);
        let answer = question.answer();
        for tight in tight_questions(&question) {
            let weighings = answer.map_or(0, |bound| bound.weighings);
            if tight.allowance < weighings {
                assert_eq!(tight.answer(), Err(Refusal::AllowanceExceeded));
            } else {
                assert_eq!(tight.answer(), answer);
            }
        }
    }
}
