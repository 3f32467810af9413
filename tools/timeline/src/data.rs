//! What the page's script is given: the states of a view as the library left them, entry by entry,
//! and the marks. Written as JSON.
//!
//! Assumes nothing. An entry is written when it changed, after the number of the event that changed
//! it; the first of each is as it was before the view's first event.

use crate::layout::Entry;
use crate::marks::{Mark, Sign};
use crate::plot::Plot;
use crate::run::View;
use crate::snapshot::{Mode, Phase, Resource, Server, Snapshot, Task};
use vesztamor::Answer;

/// All of it, safe inside a script element.
pub fn data(plot: &Plot) -> String {
    let (view, names) = (&plot.view, plot.names);
    let clocks = view.moments.iter().map(|moment| moment.after.clock);
    let clocks = std::iter::once(view.before.clock).chain(clocks);
    let tasks = view.before.tasks.len() as u16;
    let resources = view.before.resources.len() as u16;
    let servers = |state: &Snapshot, n: usize| server(&state.servers[n]);
    let all_tasks = |state: &Snapshot, n: usize| task(&state.tasks[n]);
    let all_resources = |state: &Snapshot, n: usize| resource(&state.resources[n]);
    let task_names = (0..tasks).map(|n| quoted(&names.task(n)));
    let resource_names = (0..resources).map(|n| quoted(&names.resource(n)));
    let members = [
        ("from", view.from.to_string()),
        ("to", view.to.to_string()),
        ("first", view.first.to_string()),
        ("clocks", numbers(clocks)),
        ("labels", list(labels(plot))),
        ("tasks", list(task_names)),
        ("resources", list(resource_names)),
        ("server", history(view, tasks, servers)),
        ("task", history(view, tasks, all_tasks)),
        ("resource", history(view, resources, all_resources)),
        ("marks", list(marks(plot))),
    ];
    let members = members.map(|(name, value)| format!("\"{name}\":{value}"));
    format!("{{{}}}", members.join(",\n"))
}

/// The sets of labels in the order of their numbers.
fn labels(plot: &Plot) -> Vec<String> {
    let mut sets: Vec<(&usize, &Vec<String>)> =
        plot.labelled.iter().map(|(set, n)| (n, set)).collect();
    sets.sort();
    let write = |(_, set): (&usize, &Vec<String>)| list(set.iter().map(|label| quoted(label)));
    sets.into_iter().map(write).collect()
}

/// For each entry, its numbers whenever they changed, each time after the event's number.
fn history(view: &View, count: u16, entry: impl Fn(&Snapshot, usize) -> Vec<i64>) -> String {
    let of_entry = |number: usize| {
        let mut last = entry(view.before, number);
        let mut found = vec![row(view.first - 1, &last)];
        for moment in view.moments {
            let now = entry(&moment.after, number);
            if now != last {
                found.push(row(moment.number, &now));
                last = now;
            }
        }
        list(found)
    };
    list((0..count.into()).map(of_entry))
}

fn row(event: usize, values: &[i64]) -> String {
    numbers(std::iter::once(event as i64).chain(values.iter().copied()))
}

/// Phase, budget, deadline, own, lent, spin; 1 where it executes and 2 where it spins; the task.
fn server(server: &Server) -> Vec<i64> {
    let phase = match server.phase {
        Phase::Idle => 0,
        Phase::Active => 1,
        Phase::Running => 2,
        Phase::Recharging => 3,
    };
    let (word, task) = match server.doing {
        Answer::Executes(task) => (1, task),
        Answer::Spins(task) => (2, task),
        _ => (0, 0),
    };
    let numbers = [
        server.budget,
        server.deadline,
        server.own,
        server.lent,
        server.spin,
        word,
        task,
    ];
    std::iter::once(phase)
        .chain(numbers.map(i64::from))
        .collect()
}

/// 0 suspended, 1 ready, 2 waiting; the resource awaited; the server it executes in or -1; ticks
/// executed; the resources held.
fn task(task: &Task) -> Vec<i64> {
    let (mode, awaited) = match task.mode {
        Mode::Suspended => (0, 0),
        Mode::Ready => (1, 0),
        Mode::Waiting(resource) => (2, i64::from(resource)),
    };
    let executor = task.executor.map_or(-1, i64::from);
    let held = task.held.iter().copied().map(i64::from);
    [mode, awaited, executor, task.executed.into()]
        .into_iter()
        .chain(held)
        .collect()
}

/// The owner or -1; the queue.
fn resource(resource: &Resource) -> Vec<i64> {
    let owner = resource.owner.map_or(-1, i64::from);
    std::iter::once(owner)
        .chain(resource.queue.iter().copied().map(i64::from))
        .collect()
}

/// The lane's place or -1 for the axis, the tick, the event, the sign.
fn marks(plot: &Plot) -> Vec<String> {
    let place = |entry: Entry| plot.lanes.iter().position(|lane| lane.entry == entry);
    let write = |lane: i64, mark: &Mark| {
        let sign = Sign::ALL
            .iter()
            .position(|&sign| sign == mark.sign)
            .unwrap_or(0);
        numbers([
            lane,
            (mark.tick - plot.view.from).into(),
            mark.number as i64,
            sign as i64,
        ])
    };
    let over = plot.over.iter().map(|mark| write(-1, mark));
    let lanes = plot.lanes.iter().flat_map(|lane| {
        let lane_place = place(lane.entry).map_or(-1, |place| place as i64);
        lane.marks.iter().map(move |mark| (lane_place, mark))
    });
    over.chain(lanes.map(|(lane, mark)| write(lane, mark)))
        .collect()
}

fn numbers<N: ToString>(values: impl IntoIterator<Item = N>) -> String {
    list(values.into_iter().map(|value| value.to_string()))
}

fn list(values: impl IntoIterator<Item = String>) -> String {
    format!(
        "[{}]",
        values.into_iter().collect::<Vec<String>>().join(",")
    )
}

/// A text in quotes. No letter of it ends a string or a script element.
pub fn quoted(text: &str) -> String {
    let mut out = String::from("\"");
    for letter in text.chars() {
        match letter {
            '"' | '\\' => out.extend(['\\', letter]),
            '<' | '>' | '&' | '\u{2028}' | '\u{2029}' => {
                out += &format!("\\u{:04x}", letter as u32)
            }
            _ if letter.is_control() => out += &format!("\\u{:04x}", letter as u32),
            _ => out.push(letter),
        }
    }
    out + "\""
}

#[cfg(test)]
mod tests {
    use super::quoted;

    #[test]
    fn no_text_ends_a_script() {
        assert_eq!(
            quoted("a\"b\\c</script>\n"),
            "\"a\\\"b\\\\c\\u003c/script\\u003e\\u000a\""
        );
    }
}
