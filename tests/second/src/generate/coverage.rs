//! Counts how often the cases reach each answer, refusal, stop, clause of soundness, branch of
//! rule H and kind of deep state, and tells what was never reached.
//!
//! Assumes that each step noted was made by this program: the branch of rule H is told from the
//! states before and after it.

use super::acting;
use super::events::Kind;
use crate::refusal::Refusal;
use crate::state::{
    Clause, Mode, Phase, ResourceNumber, ServerNumber, State, TaskNumber, RESOURCE_LIMIT,
    TASK_LIMIT,
};
use crate::step::{Answer, Event, Outcome};
use std::collections::BTreeMap;

/// The refusals each kind of event can give, in the order in which it tests them (rule 10.2).
pub const STEP_REFUSALS: [(Kind, &[u16]); 8] = [
    (Kind::Wake, &[1, 2, 5]),
    (Kind::Suspend, &[1, 2, 61, 62, 63]),
    (Kind::Dispatch, &[1, 2, 7, 8]),
    (Kind::Preempt, &[1, 2, 9]),
    (Kind::Elapse, &[1, 10, 11, 12]),
    (Kind::Recharge, &[1, 2, 13, 14]),
    (Kind::Lock, &[1, 2, 3, 4, 61, 62, 63, 15, 16]),
    (Kind::Unlock, &[1, 2, 3, 61, 62, 63, 17, 18]),
];

/// The answers each kind of event can give when it is carried out.
const STEP_ANSWERS: [&str; 18] = [
    "wake ok 0",
    "wake ok 1",
    "wake ok more",
    "suspend ok 1",
    "suspend ok more",
    "dispatch executes",
    "dispatch spins",
    "preempt ok 0",
    "preempt ok 1",
    "elapse ok 0",
    "elapse ok 1",
    "elapse ok more",
    "recharge ok 0",
    "recharge ok 1",
    "lock granted",
    "lock waits",
    "unlock passed",
    "unlock freed",
];

const OTHER_ANSWERS: [&str; 7] = [
    "listing with its end",
    "listed: refused 62 0",
    "listed: refused 62 and another resource",
    "meter ok",
    "meter refused 1",
    "meter refused 22",
    "bound ok",
];

const RULE_H: [&str; 6] = [
    "kept",
    "acting task's executor",
    "only candidate",
    "most budget",
    "tie, lowest number",
    "nobody left",
];

const DEEP: [&str; 14] = [
    "stack of all resources",
    "queue of all other tasks",
    "waits, end executes elsewhere",
    "waits, end taken over",
    "waits, end suspended",
    "passed to a task that holds others",
    "passed, servers of a whole chain move",
    "passed, executor goes with the new owner",
    "passed, executor stays with the releaser",
    "passed, releaser stops",
    "several servers of one task reach 0 together",
    "budget runs out inside a lock",
    "budget runs out inside nested locks",
    "suspended holder with waiters",
];

#[derive(Clone, Debug, Default)]
pub struct Coverage {
    counts: BTreeMap<String, u64>,
}

impl Coverage {
    pub fn note(&mut self, what: String) {
        *self.counts.entry(what).or_default() += 1;
    }

    /// A refusal of `fresh`, `meter` or `bound`.
    pub fn note_refusal(&mut self, whose: &str, refusal: Refusal) {
        self.note(format!("{whose} refused {}", refusal.number()));
    }

    pub fn note_broken_alone(&mut self, clause: Clause) {
        self.note(format!("broken alone: {clause:?}"));
    }

    /// The last line of a listing that stopped, or its end; and the lines with a fourth field.
    pub fn note_listing(&mut self, listing: &[u8]) {
        let text = String::from_utf8_lossy(listing);
        for line in text.lines() {
            match line.split(' ').collect::<Vec<_>>()[..] {
                [_, "refused", "62", "0"] => self.note("listed: refused 62 0".to_string()),
                [_, "refused", "62", _] => {
                    self.note("listed: refused 62 and another resource".to_string());
                }
                _ => (),
            }
        }
        let last = text.lines().last().unwrap_or_default();
        match last
            .strip_prefix("stop ")
            .and_then(|rest| rest.split_once(' '))
        {
            Some((_, number)) => self.note(format!("stop {number}")),
            None => self.note("listing with its end".to_string()),
        }
    }

    pub fn note_step(&mut self, before: &State, event: Event, answer: Answer, after: &State) {
        let kind = Kind::of(event).word();
        match answer {
            Err(refusal) => {
                self.note_refusal(kind, refusal);
                for name in acting::names(before, event, refusal) {
                    self.note(name);
                }
            }
            Ok(outcome) => {
                self.note(answer_name(kind, outcome));
                self.note_rule_h(before, event, after);
                self.note_deep(before, event, outcome, after);
            }
        }
    }

    fn note_rule_h(&mut self, before: &State, event: Event, after: &State) {
        for task in after.task_numbers() {
            if let Some(branch) = rule_h_branch(before, event, after, task) {
                self.note(format!("rule H: {branch}"));
            }
        }
    }

    fn note_deep(&mut self, before: &State, event: Event, outcome: Outcome, after: &State) {
        self.note(format!("longest chain {:2}", longest_chain(after)));
        let found = match (event, outcome) {
            (Event::Lock(task, _), Outcome::Granted(_)) => stack_names(after, task),
            (Event::Lock(task, resource), Outcome::Waits(end)) => {
                let mut names = queue_names(after, resource);
                names.push(waits_name(before, after, task, end));
                names
            }
            (Event::Unlock(task, _), Outcome::Passed(next)) => {
                passed_names(before, after, task, next)
            }
            (Event::Elapse(_), Outcome::Ok(1..)) => exhausted_names(before, after),
            (Event::Suspend(task), Outcome::Ok(2..)) if after[task].depth > 0 => {
                vec!["suspended holder with waiters"]
            }
            _ => Vec::new(),
        };
        for name in found {
            self.note(format!("deep: {name}"));
        }
    }

    /// All that a thorough set of cases has to reach.
    pub fn wanted() -> Vec<String> {
        let mut wanted: Vec<String> = STEP_ANSWERS.map(String::from).to_vec();
        wanted.extend(OTHER_ANSWERS.map(String::from));
        for (kind, refusals) in STEP_REFUSALS {
            let name = |number| format!("{} refused {number}", kind.word());
            wanted.extend(refusals.iter().map(name));
        }
        wanted.extend(acting::WANTED.map(String::from));
        wanted.extend([19, 20, 21].map(|number| format!("fresh refused {number}")));
        wanted.extend([19, 20, 21, 30, 31, 32, 33].map(|number| format!("stop {number}")));
        wanted.extend((40..=46).map(|number| format!("bound refused {number}")));
        wanted.extend(Clause::ALL.map(|clause| format!("broken alone: {clause:?}")));
        wanted.extend(RULE_H.map(|branch| format!("rule H: {branch}")));
        wanted.extend((0..TASK_LIMIT).map(|links| format!("longest chain {links:2}")));
        wanted.extend(DEEP.map(|name| format!("deep: {name}")));
        wanted
    }

    /// How often a thing was reached.
    pub fn count(&self, name: &str) -> u64 {
        self.counts.get(name).copied().unwrap_or_default()
    }

    /// What is wanted and was never reached.
    pub fn missing(&self) -> Vec<String> {
        Coverage::wanted()
            .into_iter()
            .filter(|name| self.count(name) == 0)
            .collect()
    }

    /// One line for each thing reached, with its count.
    pub fn counts(&self) -> String {
        let lines = self.counts.iter();
        lines
            .map(|(name, count)| format!("{count:>10}  {name}\n"))
            .collect()
    }

    /// What was reached, then what is missing.
    pub fn report(&self) -> String {
        let mut report = self.counts();
        for name in self.missing() {
            report.push_str(&format!("     never  {name}\n"));
        }
        report
    }
}

fn answer_name(kind: &str, outcome: Outcome) -> String {
    match outcome {
        Outcome::Ok(number @ 0..=1) => format!("{kind} ok {number}"),
        Outcome::Ok(_) => format!("{kind} ok more"),
        _ => format!("{kind} {}", outcome.word()),
    }
}

fn candidates(state: &State, task: TaskNumber) -> Vec<ServerNumber> {
    state
        .server_numbers()
        .filter(|&server| state[server].phase == Phase::Running && state.served_by(server) == task)
        .collect()
}

/// The branch of rule H that gave the task its server, if it has or had one.
fn rule_h_branch(
    before: &State,
    event: Event,
    after: &State,
    task: TaskNumber,
) -> Option<&'static str> {
    let Some(chosen) = after[task].runs else {
        return before[task].runs.map(|_| "nobody left");
    };
    if before[task].runs == Some(chosen) {
        return Some("kept");
    }
    let executor = match event {
        Event::Lock(acting, _) | Event::Unlock(acting, _) => before[acting].runs,
        _ => None,
    };
    if executor == Some(chosen) {
        return Some("acting task's executor");
    }
    let candidates = candidates(after, task);
    let budget = after[chosen].budget;
    let equal = candidates
        .iter()
        .filter(|&&server| after[server].budget == budget);
    Some(match (candidates.len(), equal.count()) {
        (1, _) => "only candidate",
        (_, 1) => "most budget",
        _ => "tie, lowest number",
    })
}

fn links(state: &State, task: TaskNumber) -> usize {
    let following = |task: &TaskNumber| state.next_in_chain(*task);
    std::iter::successors(Some(task), following).count() - 1
}

fn longest_chain(state: &State) -> usize {
    let links = state.task_numbers().map(|task| links(state, task));
    links.max().unwrap_or_default()
}

fn stack_names(after: &State, task: TaskNumber) -> Vec<&'static str> {
    if after[task].stack().len() == RESOURCE_LIMIT {
        vec!["stack of all resources"]
    } else {
        Vec::new()
    }
}

fn queue_names(after: &State, resource: ResourceNumber) -> Vec<&'static str> {
    if after[resource].waiters().len() == TASK_LIMIT - 1 {
        vec!["queue of all other tasks"]
    } else {
        Vec::new()
    }
}

fn waits_name(before: &State, after: &State, task: TaskNumber, end: TaskNumber) -> &'static str {
    if after[end].mode == Mode::Suspended {
        "waits, end suspended"
    } else if after[end].runs == before[task].runs {
        "waits, end taken over"
    } else {
        "waits, end executes elsewhere"
    }
}

/// All that is told of a hand-over from one task to the next.
fn passed_names(
    before: &State,
    after: &State,
    task: TaskNumber,
    next: TaskNumber,
) -> Vec<&'static str> {
    let executor = before[task].runs;
    let served = |server: &ServerNumber| after.served_by(*server) == next;
    let indirect = |server: &ServerNumber| links(before, server.own_task()) > 1;
    let whole_chain = after
        .server_numbers()
        .any(|server| served(&server) && indirect(&server));
    let told = [
        (after[next].depth > 1, "passed to a task that holds others"),
        (whole_chain, "passed, servers of a whole chain move"),
        (
            after[next].runs == executor,
            "passed, executor goes with the new owner",
        ),
        (
            after[task].runs == executor,
            "passed, executor stays with the releaser",
        ),
        (after[task].runs.is_none(), "passed, releaser stops"),
    ];
    names_of(&told)
}

/// All that is told of servers that ran out in this elapse.
fn exhausted_names(before: &State, after: &State) -> Vec<&'static str> {
    let mut exhausted = [0; TASK_LIMIT];
    let mut depth = 0;
    for server in after.server_numbers() {
        let ran = before[server].phase == Phase::Running;
        if ran && after[server].phase == Phase::Recharging {
            let task = before.served_by(server);
            exhausted[task.index()] += 1;
            if before[task].runs == Some(server) {
                depth = depth.max(before[task].depth);
            }
        }
    }
    let together = exhausted.iter().any(|&count| count > 1);
    let told = [
        (together, "several servers of one task reach 0 together"),
        (depth > 0, "budget runs out inside a lock"),
        (depth > 1, "budget runs out inside nested locks"),
    ];
    names_of(&told)
}

fn names_of(told: &[(bool, &'static str)]) -> Vec<&'static str> {
    let true_ones = told.iter().filter(|(true_of_it, _)| *true_of_it);
    true_ones.map(|&(_, name)| name).collect()
}
