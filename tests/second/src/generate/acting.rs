//! What is told of the refusals 61 to 63: what the task's own server does, what 62 names, and which
//! other refusals the event would have met.
//!
//! Assumes that the step noted was made by this program.

use super::events::Kind;
use crate::refusal::Refusal;
use crate::state::{Mode, ResourceNumber, State, TaskNumber};
use crate::states::phase_word;
use crate::step::Event;

/// All that a thorough set of cases has to reach. A lock by a task that waits never meets 16: no
/// chain ends at it.
pub const WANTED: [&str; 35] = [
    "61, own server idle",
    "61, own server recharging",
    "62, own server idle",
    "62, own server active",
    "62, own server running",
    "62, own server recharging",
    "63, own server active",
    "63, own server recharging",
    "62 names resource 0",
    "62 names a resource other than 0",
    "62 names the event's resource",
    "62 names another than the event's resource",
    "62 names the chain's last resource",
    "62 names another than the chain's last resource",
    "62 names neither the event's nor the chain's last resource",
    "lock 3 before 61",
    "lock 3 before 62",
    "lock 3 before 63",
    "lock 4 before 61",
    "lock 4 before 62",
    "lock 4 before 63",
    "lock 61 before 15",
    "lock 61 before 16",
    "lock 62 before 15",
    "lock 63 before 15",
    "lock 63 before 16",
    "unlock 3 before 61",
    "unlock 3 before 62",
    "unlock 3 before 63",
    "unlock 61 before 17",
    "unlock 61 before 18",
    "unlock 62 before 17",
    "unlock 62 before 18",
    "unlock 63 before 17",
    "unlock 63 before 18",
];

/// What a refused event reaches of these.
pub fn names(state: &State, event: Event, refusal: Refusal) -> Vec<String> {
    let (task, resource) = match event {
        Event::Suspend(task) => (task, None),
        Event::Lock(task, resource) | Event::Unlock(task, resource) => (task, Some(resource)),
        _ => return Vec::new(),
    };
    // Before these two nothing else is looked at.
    if matches!(
        refusal,
        Refusal::StateNotSound | Refusal::NoSuchTaskOrServer
    ) {
        return Vec::new();
    }
    let told = refusal.number();
    let reason = reason_not_to_act(state, task);
    let mut names = Vec::new();
    if reason == Some(told) {
        let phase = phase_word(state[task.own_server()].phase);
        names.push(format!("{told}, own server {phase}"));
        let later = others(state, event).into_iter();
        names.extend(later.map(|other| before(event, told, other)));
    } else if let (3 | 4, Some(reason)) = (told, reason) {
        names.push(before(event, told, reason));
    }
    if let Refusal::TaskWaiting(named) = refusal {
        let last = last_resource(state, task);
        names.extend(names_of_named(named, resource, last).map(String::from));
    }
    names
}

fn before(event: Event, told: u16, other: u16) -> String {
    format!("{} {told} before {other}", Kind::of(event).word())
}

/// By where the task executes, while the step goes by who serves it.
fn reason_not_to_act(state: &State, task: TaskNumber) -> Option<u16> {
    match state[task].mode {
        Mode::Suspended => Some(61),
        Mode::Waiting(_) => Some(62),
        Mode::Ready => state[task].runs.is_none().then_some(63),
    }
}

/// What an event of a task that may not act would be refused with, if it might.
fn others(state: &State, event: Event) -> Vec<u16> {
    let tests = match event {
        Event::Lock(task, resource) => {
            let owner = state[resource].owner;
            let others = owner.filter(|&owner| owner != task);
            let closes = others.is_some_and(|owner| state.chain_end(owner) == task);
            vec![(owner == Some(task), 15), (closes, 16)]
        }
        Event::Unlock(task, resource) => {
            let owned = state[resource].owner == Some(task);
            let on_top = state[task].stack().last() == Some(&resource);
            vec![(!owned, 17), (owned && !on_top, 18)]
        }
        _ => Vec::new(),
    };
    let applying = tests.into_iter().filter(|(applies, _)| *applies);
    applying.map(|(_, number)| number).collect()
}

/// What the last task of the chain that waits waits for; the chain's end owns it.
fn last_resource(state: &State, task: TaskNumber) -> Option<ResourceNumber> {
    let following = |task: &TaskNumber| state.next_in_chain(*task);
    let chain = std::iter::successors(Some(task), following);
    let awaited = chain.filter_map(|task| match state[task].mode {
        Mode::Waiting(resource) => Some(resource),
        _ => None,
    });
    awaited.last()
}

fn names_of_named(
    named: ResourceNumber,
    of_event: Option<ResourceNumber>,
    last: Option<ResourceNumber>,
) -> impl Iterator<Item = &'static str> {
    let other_than_event = of_event.is_some_and(|resource| resource != named);
    let other_than_last = last != Some(named);
    let told = [
        (named.0 == 0, "62 names resource 0"),
        (named.0 != 0, "62 names a resource other than 0"),
        (of_event == Some(named), "62 names the event's resource"),
        (
            other_than_event,
            "62 names another than the event's resource",
        ),
        (!other_than_last, "62 names the chain's last resource"),
        (
            other_than_last,
            "62 names another than the chain's last resource",
        ),
        (
            other_than_event && other_than_last,
            "62 names neither the event's nor the chain's last resource",
        ),
    ];
    told.into_iter()
        .filter(|(true_of_it, _)| *true_of_it)
        .map(|(_, name)| name)
}
