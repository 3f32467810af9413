//! Events and answers in words: as the trace's text has them, as the listing has them, and as a
//! sentence with names.
//!
//! Assumes nothing. What a refusal's number means is read from `docs/REFUSALS.md`.

use crate::names::Names;
use crate::run::{Moment, Stop};
use vesztamor::{Answer, Event};

const REFUSALS: &str = include_str!("../../../docs/REFUSALS.md");

/// When a number is told, in the words of its table.
pub fn refusal(number: u32) -> &'static str {
    let row = REFUSALS.lines().find_map(|line| {
        let mut cells = line.split('|').map(str::trim).skip(1);
        let found = cells.next()?.parse() == Ok(number);
        found.then(|| cells.nth(1)).flatten()
    });
    row.unwrap_or("no number of the table")
}

/// A stop as the listing has it, and what it means.
pub fn stop(stop: Stop) -> String {
    let Stop { offset, number } = stop;
    format!(
        "stop {offset} {number}: {}, at byte {offset}",
        refusal(number)
    )
}

/// As `tools/trace` writes it.
pub fn event(event: Event) -> String {
    match event {
        Event::Wake { task } => format!("wake {task}"),
        Event::Suspend { task } => format!("suspend {task}"),
        Event::Dispatch { server } => format!("dispatch {server}"),
        Event::Preempt { server } => format!("preempt {server}"),
        Event::Elapse { ticks } => format!("elapse {ticks}"),
        Event::Recharge { server } => format!("recharge {server}"),
        Event::Lock { task, resource } => format!("lock {task} {resource}"),
        Event::Unlock { task, resource } => format!("unlock {task} {resource}"),
    }
}

/// As the listing writes it.
pub fn answer(answer: Answer) -> String {
    let (word, number) = match answer {
        Answer::Ok(n) => ("ok", n),
        Answer::Executes(n) => ("executes", n),
        Answer::Spins(n) => ("spins", n),
        Answer::Granted(n) => ("granted", n),
        Answer::Waits(n) => ("waits", n),
        Answer::Passed(n) => ("passed", n),
        Answer::Freed(n) => ("freed", n),
        Answer::Refused(n) => ("refused", n),
        Answer::RefusedWaiting(resource) => return format!("refused 62 {resource}"),
    };
    format!("{word} {number}")
}

/// An event's line of the listing.
pub fn line(moment: &Moment) -> String {
    format!("{} {}", moment.number, answer(moment.answer))
}

/// What happened, in a sentence.
pub fn sentence(moment: &Moment, names: &Names) -> String {
    match moment.answer {
        Answer::Refused(number) => {
            let when = refusal(number);
            let why = when.split_once(": ").map_or(when, |(_, why)| why);
            format!("refused to {}: {why}", wish(moment.event, names))
        }
        Answer::RefusedWaiting(resource) => {
            let awaited = names.resource(resource as u16);
            let wish = wish(moment.event, names);
            format!("refused to {wish}: the task waits for {awaited}")
        }
        _ => format!("{}{}", done(moment.event, names), outcome(moment, names)),
    }
}

fn wish(event: Event, names: &Names) -> String {
    match event {
        Event::Wake { task } => format!("wake {}", names.task(task)),
        Event::Suspend { task } => format!("suspend {}", names.task(task)),
        Event::Dispatch { server } => format!("dispatch {}", names.server(server)),
        Event::Preempt { server } => format!("preempt {}", names.server(server)),
        Event::Elapse { ticks } => format!("let {ticks} ticks pass"),
        Event::Recharge { server } => format!("recharge {}", names.server(server)),
        Event::Lock { task, resource } => {
            format!("lock {} for {}", names.resource(resource), names.task(task))
        }
        Event::Unlock { task, resource } => {
            format!(
                "unlock {} for {}",
                names.resource(resource),
                names.task(task)
            )
        }
    }
}

fn done(event: Event, names: &Names) -> String {
    match event {
        Event::Wake { task } => format!("{} wakes", names.task(task)),
        Event::Suspend { task } => format!("{} goes to sleep", names.task(task)),
        Event::Dispatch { server } => format!("{} gets a processor", names.server(server)),
        Event::Preempt { server } => format!("{} gives up its processor", names.server(server)),
        Event::Elapse { ticks: 1 } => "1 tick passes".to_string(),
        Event::Elapse { ticks } => format!("{ticks} ticks pass"),
        Event::Recharge { server } => format!("{} is recharged", names.server(server)),
        Event::Lock { task, resource } => {
            format!("{} locks {}", names.task(task), names.resource(resource))
        }
        Event::Unlock { task, resource } => {
            format!("{} unlocks {}", names.task(task), names.resource(resource))
        }
    }
}

/// What an accepted event led to.
fn outcome(moment: &Moment, names: &Names) -> String {
    let task = |number: u32| names.task(number as u16);
    match (moment.answer, moment.event) {
        (Answer::Executes(t), _) => format!(" and executes {}", task(t)),
        (Answer::Spins(t), _) => format!(" and spins for {}", task(t)),
        (Answer::Granted(_), _) => " and owns it".to_string(),
        (Answer::Waits(t), _) => format!(" and waits; at the chain's end is {}", task(t)),
        (Answer::Passed(t), _) => format!(", which passes to {}", task(t)),
        (Answer::Freed(_), _) => ", and nobody waits for it".to_string(),
        (Answer::Ok(0), Event::Recharge { .. }) => " and is Idle".to_string(),
        (Answer::Ok(_), Event::Recharge { .. }) => " and is Active".to_string(),
        (Answer::Ok(0) | Answer::Refused(_) | Answer::RefusedWaiting(_), _) => String::new(),
        (Answer::Ok(_), Event::Preempt { .. }) => "; the task goes on elsewhere".to_string(),
        (Answer::Ok(n), Event::Wake { .. }) => format!("; {} Active", became(n)),
        (Answer::Ok(n), Event::Suspend { .. }) => format!("; {} Idle", became(n)),
        (Answer::Ok(1), _) => "; 1 server runs out".to_string(),
        (Answer::Ok(n), _) => format!("; {n} servers run out"),
    }
}

fn became(servers: u32) -> String {
    match servers {
        1 => "1 server becomes".to_string(),
        n => format!("{n} servers become"),
    }
}

/// Names in a row.
pub fn listed(names: impl IntoIterator<Item = String>) -> String {
    names.into_iter().collect::<Vec<String>>().join(", ")
}

#[cfg(test)]
mod tests {
    use super::{refusal, stop};
    use crate::run::Stop;

    #[test]
    fn numbers_are_told_in_the_words_of_their_table() {
        assert_eq!(refusal(14), "recharge: the clock is before the deadline");
        assert_eq!(refusal(33), "trace: the file is above 60,000 bytes");
        assert_eq!(refusal(99), "no number of the table");
        let told = stop(Stop {
            offset: 38,
            number: 30,
        });
        assert_eq!(told, "stop 38 30: trace: a record is cut short, at byte 38");
    }
}
