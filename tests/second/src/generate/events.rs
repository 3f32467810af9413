//! Picks events that a state accepts, and events that it refuses for each reason it has.
//!
//! Assumes a sound state.

use super::random::Random;
use crate::state::{
    Mode, Phase, ResourceNumber, ServerNumber, State, TaskNumber, CLOCK_LIMIT, TICK_LIMIT,
};
use crate::step::{step_sound, Answer, Event};

/// The eight kinds of event.
#[derive(Clone, Copy, Debug, PartialEq, Eq)]
pub enum Kind {
    Wake,
    Suspend,
    Dispatch,
    Preempt,
    Elapse,
    Recharge,
    Lock,
    Unlock,
}

impl Kind {
    pub const ALL: [Kind; 8] = [
        Kind::Wake,
        Kind::Suspend,
        Kind::Dispatch,
        Kind::Preempt,
        Kind::Elapse,
        Kind::Recharge,
        Kind::Lock,
        Kind::Unlock,
    ];

    pub fn of(event: Event) -> Kind {
        match event {
            Event::Wake(_) => Kind::Wake,
            Event::Suspend(_) => Kind::Suspend,
            Event::Dispatch(_) => Kind::Dispatch,
            Event::Preempt(_) => Kind::Preempt,
            Event::Elapse(_) => Kind::Elapse,
            Event::Recharge(_) => Kind::Recharge,
            Event::Lock(_, _) => Kind::Lock,
            Event::Unlock(_, _) => Kind::Unlock,
        }
    }

    pub fn word(self) -> &'static str {
        match self {
            Kind::Wake => "wake",
            Kind::Suspend => "suspend",
            Kind::Dispatch => "dispatch",
            Kind::Preempt => "preempt",
            Kind::Elapse => "elapse",
            Kind::Recharge => "recharge",
            Kind::Lock => "lock",
            Kind::Unlock => "unlock",
        }
    }
}

/// What a source of events likes to do: a weight for each kind, in the order of `Kind::ALL`.
#[derive(Clone, Copy, Debug)]
pub struct Manner {
    weights: [u32; Kind::ALL.len()],
    /// Once in so many times an event that is refused.
    wrong_once_in: u64,
}

impl Manner {
    /// Every kind alike.
    const CALM: [u32; 8] = [4, 1, 5, 2, 4, 4, 4, 4];
    /// Locks within locks, seldom given back.
    const NESTED: [u32; 8] = [8, 1, 8, 4, 1, 4, 12, 1];
    /// Budgets run out.
    const HUNGRY: [u32; 8] = [4, 0, 8, 1, 10, 4, 6, 2];
    /// Holders go to sleep.
    const SLEEPY: [u32; 8] = [3, 5, 6, 2, 2, 3, 6, 1];
    /// Locks are handed over.
    const GIVING: [u32; 8] = [4, 1, 8, 3, 2, 6, 4, 10];

    pub fn any(random: &mut Random) -> Manner {
        let manners = [
            Manner::CALM,
            Manner::NESTED,
            Manner::HUNGRY,
            Manner::SLEEPY,
            Manner::GIVING,
        ];
        Manner {
            weights: manners[random.index(manners.len())],
            wrong_once_in: u64::from(random.between(3, 30)),
        }
    }
}

/// What the state would answer, which is left as it is.
fn trial(state: &State, event: Event) -> Answer {
    let mut copy = *state;
    step_sound(&mut copy, event)
}

/// The next event for this state: mostly one that it accepts.
pub fn next_event(random: &mut Random, manner: &Manner, state: &State) -> Event {
    if !random.one_in(manner.wrong_once_in) {
        if let Some(event) = good_event(random, manner, state) {
            return event;
        }
    }
    wrong_event(random, state)
}

fn good_event(random: &mut Random, manner: &Manner, state: &State) -> Option<Event> {
    let mut choices: Vec<(u32, Vec<Event>)> = Vec::new();
    for (kind, &weight) in Kind::ALL.into_iter().zip(&manner.weights) {
        let events = accepted_events(random, state, kind);
        if !events.is_empty() && weight > 0 {
            choices.push((weight, events));
        }
    }
    let total: u32 = choices.iter().map(|(weight, _)| weight).sum();
    let mut left = random.between(1, total.max(1));
    for (weight, events) in choices {
        if left <= weight {
            return random.pick(&events);
        }
        left -= weight;
    }
    None
}

/// The events of a kind that this state accepts; of the elapses only some.
pub fn accepted_events(random: &mut Random, state: &State, kind: Kind) -> Vec<Event> {
    match kind {
        Kind::Elapse => good_elapses(random, state),
        _ => {
            let mut events = likely_events(state, kind);
            events.retain(|&event| trial(state, event).is_ok());
            events
        }
    }
}

/// Events of a kind, cut to those that can be accepted at a glance.
fn likely_events(state: &State, kind: Kind) -> Vec<Event> {
    let tasks_where = |wanted: &dyn Fn(TaskNumber) -> bool| -> Vec<TaskNumber> {
        state.task_numbers().filter(|&task| wanted(task)).collect()
    };
    let servers_in = |phase: Phase| {
        state
            .server_numbers()
            .filter(move |&server| state[server].phase == phase)
    };
    let executing = || tasks_where(&|task| state[task].runs.is_some());
    match kind {
        Kind::Wake => {
            let suspended = tasks_where(&|task| state[task].mode == Mode::Suspended);
            suspended.into_iter().map(Event::Wake).collect()
        }
        Kind::Suspend => executing().into_iter().map(Event::Suspend).collect(),
        Kind::Dispatch => servers_in(Phase::Active).map(Event::Dispatch).collect(),
        Kind::Preempt => servers_in(Phase::Running).map(Event::Preempt).collect(),
        Kind::Recharge => servers_in(Phase::Recharging).map(Event::Recharge).collect(),
        Kind::Elapse => Vec::new(),
        Kind::Lock => executing()
            .into_iter()
            .flat_map(|task| state.resource_numbers().map(move |r| Event::Lock(task, r)))
            .collect(),
        Kind::Unlock => executing()
            .into_iter()
            .filter_map(|task| Some(Event::Unlock(task, *state[task].stack().last()?)))
            .collect(),
    }
}

/// The smallest budget of a Running server.
fn least_budget(state: &State) -> Option<u32> {
    state
        .server_numbers()
        .filter(|&server| state[server].phase == Phase::Running)
        .map(|server| state[server].budget)
        .min()
}

/// A few ticks, just enough to exhaust a server, and just enough for a recharge to be due.
fn good_elapses(random: &mut Random, state: &State) -> Vec<Event> {
    let left = CLOCK_LIMIT - state.clock;
    let affordable = least_budget(state).unwrap_or(TICK_LIMIT).min(left);
    if affordable == 0 {
        return Vec::new();
    }
    let mut ticks = vec![random.between(1, affordable.min(8))];
    if least_budget(state).is_some() || random.one_in(20) {
        ticks.push(affordable);
    }
    let until_recharge = state
        .server_numbers()
        .filter(|&server| state[server].phase == Phase::Recharging)
        .map(|server| state[server].deadline.saturating_sub(state.clock))
        .filter(|wait| (1..=affordable).contains(wait));
    ticks.extend(until_recharge.min());
    ticks.into_iter().map(Event::Elapse).collect()
}

/// An event that this state refuses; each number there is for its kind is as likely.
fn wrong_event(random: &mut Random, state: &State) -> Event {
    loop {
        let kind = Kind::ALL[random.index(Kind::ALL.len())];
        let candidates = possible_events(random, state, kind);
        let refused: Vec<(Event, u16)> = candidates
            .into_iter()
            .filter_map(|event| {
                let refusal = trial(state, event).err()?;
                Some((event, refusal.number()))
            })
            .collect();
        let mut numbers: Vec<u16> = refused.iter().map(|&(_, number)| number).collect();
        numbers.sort_unstable();
        numbers.dedup();
        let wanted = random.pick(&numbers);
        let fitting: Vec<Event> = refused
            .into_iter()
            .filter(|&(_, number)| Some(number) == wanted)
            .map(|(event, _)| event)
            .collect();
        if let Some(event) = random.pick(&fitting) {
            return event;
        }
    }
}

/// Events of a kind over all numbers there are, and some past them.
pub fn possible_events(random: &mut Random, state: &State, kind: Kind) -> Vec<Event> {
    let past = |random: &mut Random, count: u16| [count, random.number(count, u16::MAX)];
    let mut tasks: Vec<u16> = (0..state.tasks).collect();
    tasks.extend(past(random, state.tasks));
    let mut resources: Vec<u16> = (0..state.resources).collect();
    resources.extend(past(random, state.resources));
    let each_task = |make: fn(TaskNumber) -> Event| -> Vec<Event> {
        tasks.iter().map(|&task| make(TaskNumber(task))).collect()
    };
    let each_server = |make: fn(ServerNumber) -> Event| -> Vec<Event> {
        tasks.iter().map(|&task| make(ServerNumber(task))).collect()
    };
    let each_pair = |make: fn(TaskNumber, ResourceNumber) -> Event| -> Vec<Event> {
        let pairs = tasks
            .iter()
            .flat_map(|&task| resources.iter().map(move |&resource| (task, resource)));
        pairs
            .map(|(task, resource)| make(TaskNumber(task), ResourceNumber(resource)))
            .collect()
    };
    match kind {
        Kind::Wake => each_task(Event::Wake),
        Kind::Suspend => each_task(Event::Suspend),
        Kind::Dispatch => each_server(Event::Dispatch),
        Kind::Preempt => each_server(Event::Preempt),
        Kind::Recharge => each_server(Event::Recharge),
        Kind::Lock => each_pair(Event::Lock),
        Kind::Unlock => each_pair(Event::Unlock),
        Kind::Elapse => possible_elapses(random, state),
    }
}

/// Ticks out of range, past the clock's limit, and above some budget.
fn possible_elapses(random: &mut Random, state: &State) -> Vec<Event> {
    let above_range = random.between(TICK_LIMIT + 1, u32::MAX);
    let above_budget = least_budget(state).map(|budget| budget + 1);
    let past_limit = CLOCK_LIMIT - state.clock + 1;
    let ticks = [0, TICK_LIMIT + 1, above_range, past_limit];
    ticks
        .into_iter()
        .chain(above_budget)
        .map(Event::Elapse)
        .collect()
}
