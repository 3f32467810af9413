//! Layers that judge wrongly why a task may not act: each is told apart, by the named case and by
//! seeded ones.
//!
//! Assumes nothing. The wrong layers answer as the second program does but for a suspend, lock or
//! unlock that is refused.

mod common;

use common::difference;
use cross::answer::{Answer, REFUSED};
use cross::sides::{Call, Layer, Second};
use second::image::{decode, encode};
use second::state::{Mode, Phase, ResourceNumber, State, TaskNumber};

/// The answer that a wrong layer gives in the place of the right one, which is neither 1 nor 2: the
/// state is sound and the task is there.
type Judgement = fn(&State, Call, Answer) -> Answer;

struct WrongLayer(Judgement);

impl Layer for WrongLayer {
    fn step(&self, state: &mut [u8], call: Call) -> Answer {
        let before = decode(state);
        let answer = Second.step(state, call);
        let judged = matches!(call.kind, 2 | 7 | 8) && answer.word == REFUSED && answer.number > 2;
        match before {
            Some(before) if judged => self.0(&before, call, answer),
            _ => answer,
        }
    }

    fn layout(&self) -> Answer {
        Second.layout()
    }

    fn fresh(&self, table: &[u8], state: &mut [u8]) -> Answer {
        Second.fresh(table, state)
    }

    fn is_sound(&self, state: &[u8]) -> Answer {
        Second.is_sound(state)
    }

    fn executing(&self, state: &[u8], server: u16) -> Answer {
        Second.executing(state, server)
    }

    fn meter(&self, state: &[u8], rows: &mut [u8]) -> Answer {
        Second.meter(state, rows)
    }

    fn bound(&self, sections: &[u8], task: u16, allowance: u32, out: &mut [u8]) -> Answer {
        Second.bound(sections, task, allowance, out)
    }

    fn replay(&self, trace: &[u8], out: &mut [u8]) -> Answer {
        Second.replay(trace, out)
    }
}

/// Each wrong judgement, with what the two sides say of the named case once it is small.
const WRONG: [(&str, Judgement, [&str; 2]); 18] = [
    ("6 as it was", six, ["refused 6", "refused 61"]),
    (
        "62 forgets the resource",
        |_, _, right| named(right, None),
        ["refused 62", "refused 62 0"],
    ),
    (
        "62 has the resource where one more belongs",
        |_, _, right| named(right, right.follows.unwrap_or(0).checked_sub(1)),
        ["refused 62", "refused 62 0"],
    ),
    (
        "62 names the event's resource",
        |_, call, right| named(right, Some(u32::from(call.resource))),
        ["refused 62 1", "refused 62 0"],
    ),
    (
        "62 names the chain's last resource",
        |state, call, right| named(right, last_resource(state, TaskNumber(call.number))),
        ["refused 62 3", "refused 62 0"],
    ),
    (
        "62 names the task at the chain's end",
        |state, call, right| named(right, Some(end(state, call))),
        ["refused 62 2", "refused 62 0"],
    ),
    (
        "61 for 62",
        |_, _, right| told_for(right, 62, 61),
        ["refused 61", "refused 62 0"],
    ),
    (
        "63 for 61",
        |_, _, right| told_for(right, 61, 63),
        ["refused 63", "refused 61"],
    ),
    (
        "61 for 63",
        |_, _, right| told_for(right, 63, 61),
        ["refused 61", "refused 63"],
    ),
    (
        "63 before 62",
        |_, _, right| told_for(right, 62, 63),
        ["refused 63", "refused 62 0"],
    ),
    (
        "61 where the task's own server is Idle",
        by_own_server,
        ["refused 61", "refused 62 0"],
    ),
    (
        "before 3",
        |state, call, right| sooner(3, state, call, right),
        ["refused 61", "refused 3"],
    ),
    (
        "before 4",
        |state, call, right| sooner(4, state, call, right),
        ["refused 61", "refused 4"],
    ),
    ("unlock asks for 4", undeclared, ["refused 4", "refused 61"]),
    (
        "after 15",
        |state, call, right| later(state, call, right, held),
        ["refused 15", "refused 61"],
    ),
    (
        "after 16",
        |state, call, right| later(state, call, right, closes),
        ["refused 16", "refused 61"],
    ),
    (
        "after 17",
        |state, call, right| later(state, call, right, not_owned),
        ["refused 17", "refused 61"],
    ),
    (
        "after 18",
        |state, call, right| later(state, call, right, not_on_top),
        ["refused 18", "refused 61"],
    ),
];

fn six(_: &State, _: Call, right: Answer) -> Answer {
    match right.number {
        61..=63 => Answer::refused(6),
        _ => right,
    }
}

/// A 62 with this after it.
fn named(right: Answer, follows: Option<u32>) -> Answer {
    match right.number {
        62 => Answer { follows, ..right },
        _ => right,
    }
}

fn told_for(right: Answer, number: u32, other: u32) -> Answer {
    if right.number == number {
        Answer::refused(other)
    } else {
        right
    }
}

fn by_own_server(state: &State, call: Call, right: Answer) -> Answer {
    let own = TaskNumber(call.number).own_server();
    match right.number {
        62 if state[own].phase == Phase::Idle => Answer::refused(61),
        _ => right,
    }
}

/// Why the task may not act, in the place of an earlier refusal.
fn sooner(earlier: u32, state: &State, call: Call, right: Answer) -> Answer {
    let suspend = Call { kind: 2, ..call };
    let reason = Second.step(&mut encode(state), suspend);
    if right.number == earlier && matches!(reason.number, 61..=63) {
        reason
    } else {
        right
    }
}

/// A later refusal in the place of why the task may not act.
fn later(
    state: &State,
    call: Call,
    right: Answer,
    other: fn(&State, Call) -> Option<u32>,
) -> Answer {
    match (right.number, call.kind) {
        (61..=63, 7 | 8) => other(state, call).map_or(right, Answer::refused),
        _ => right,
    }
}

fn owner(state: &State, call: Call) -> Option<TaskNumber> {
    state[ResourceNumber(call.resource)].owner
}

fn end(state: &State, call: Call) -> u32 {
    u32::from(state.chain_end(TaskNumber(call.number)).0)
}

fn last_resource(state: &State, task: TaskNumber) -> Option<u32> {
    match (state.next_in_chain(task), state[task].mode) {
        (Some(owner), Mode::Waiting(awaited)) => {
            last_resource(state, owner).or(Some(u32::from(awaited.0)))
        }
        _ => None,
    }
}

fn undeclared(state: &State, call: Call, right: Answer) -> Answer {
    let declared = state[TaskNumber(call.number)].declares(ResourceNumber(call.resource));
    match (right.number, call.kind) {
        (61..=63, 8) if !declared => Answer::refused(4),
        _ => right,
    }
}

fn held(state: &State, call: Call) -> Option<u32> {
    let own = owner(state, call) == Some(TaskNumber(call.number));
    (call.kind == 7 && own).then_some(15)
}

fn closes(state: &State, call: Call) -> Option<u32> {
    let task = TaskNumber(call.number);
    let owner = owner(state, call).filter(|&owner| owner != task)?;
    (call.kind == 7 && state.chain_end(owner) == task).then_some(16)
}

fn not_owned(state: &State, call: Call) -> Option<u32> {
    let own = owner(state, call) == Some(TaskNumber(call.number));
    (call.kind == 8 && !own).then_some(17)
}

fn not_on_top(state: &State, call: Call) -> Option<u32> {
    let task = TaskNumber(call.number);
    let on_top = state[task].stack().last() == Some(&ResourceNumber(call.resource));
    let own = owner(state, call) == Some(task);
    (call.kind == 8 && own && !on_top).then_some(18)
}

/// The text of the first difference in a family.
fn told_apart(what: &str, judgement: Judgement, family: &str) -> String {
    let text = difference(&WrongLayer(judgement), family);
    text.unwrap_or_else(|| panic!("{what}: not told apart"))
}

#[test]
fn the_named_case_tells_them_apart() {
    for (what, judgement, [wrong, right]) in WRONG {
        let text = told_apart(what, judgement, "case 6, who may not act");
        let told = format!("proved: {wrong}\nsecond: {right}\n");
        assert!(text.contains(&told), "{what}: {text}");
    }
}

#[test]
fn seeded_states_tell_them_apart() {
    for (what, judgement, _) in WRONG {
        told_apart(what, judgement, "made-up sound states");
    }
}

#[test]
fn seeded_runs_tell_them_apart() {
    for (what, judgement, _) in WRONG {
        told_apart(what, judgement, "runs step by step");
    }
}
