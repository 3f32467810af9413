//! Marks: locks, passes and refusals, each at its instant with its event's number.
//!
//! Assumes nothing. A refused event whose task or server does not exist, and a refused elapse,
//! have no lane; their marks stand over the axis.

use crate::layout::Entry;
use crate::run::{Moment, View};
use crate::scale::Scale;
use vesztamor::{Answer, Event};

#[derive(Clone, Copy, Debug, PartialEq, Eq)]
pub enum Sign {
    Granted,
    Waits,
    Passed,
    Freed,
    Refused,
}

impl Sign {
    pub const ALL: [Sign; 5] = [
        Sign::Granted,
        Sign::Waits,
        Sign::Passed,
        Sign::Freed,
        Sign::Refused,
    ];

    pub fn word(self) -> &'static str {
        match self {
            Sign::Granted => "granted",
            Sign::Waits => "waits",
            Sign::Passed => "passed",
            Sign::Freed => "freed",
            Sign::Refused => "refused",
        }
    }

    fn of(answer: Answer) -> Option<Sign> {
        match answer {
            Answer::Granted(_) => Some(Sign::Granted),
            Answer::Waits(_) => Some(Sign::Waits),
            Answer::Passed(_) => Some(Sign::Passed),
            Answer::Freed(_) => Some(Sign::Freed),
            Answer::Refused(_) | Answer::RefusedWaiting(_) => Some(Sign::Refused),
            _ => None,
        }
    }
}

#[derive(Clone, Copy, Debug, PartialEq, Eq)]
pub struct Mark {
    pub sign: Sign,
    pub tick: u32,
    /// The event's.
    pub number: usize,
    /// None for the axis.
    pub entry: Option<Entry>,
}

/// The marks of a view, in the order of their events.
pub fn marks(view: &View) -> Vec<Mark> {
    let tasks = view.before.tasks.len();
    let mark = |moment: &Moment| {
        let tick = moment.after.clock;
        let inside = (view.from..=view.to).contains(&tick);
        Sign::of(moment.answer).filter(|_| inside).map(|sign| Mark {
            sign,
            tick,
            number: moment.number,
            entry: entry(moment.event, tasks),
        })
    };
    view.moments.iter().filter_map(mark).collect()
}

fn entry(event: Event, tasks: usize) -> Option<Entry> {
    let entry = match event {
        Event::Elapse { .. } => return None,
        Event::Dispatch { server } | Event::Preempt { server } | Event::Recharge { server } => {
            Entry::Server(server)
        }
        Event::Wake { task } | Event::Suspend { task } => Entry::Task(task),
        Event::Lock { task, .. } | Event::Unlock { task, .. } => Entry::Task(task),
    };
    (usize::from(entry.number()) < tasks).then_some(entry)
}

/// Where marks of one lane are drawn: each with its number, or several as one where there is no
/// room for them.
#[derive(Clone, Debug, PartialEq)]
pub struct Placed<'a> {
    pub x: f64,
    pub marks: &'a [Mark],
}

/// The room right of the last tick.
pub const OVERHANG: f64 = 44.0;

pub fn width_of(mark: &Mark) -> f64 {
    15.0 + 6.2 * mark.number.to_string().len() as f64
}

fn width_of_several(count: usize) -> f64 {
    22.0 + 6.2 * count.to_string().len() as f64
}

/// Marks at one instant stand side by side; marks that have no room before the next instant become
/// one, and take further ones in until there is room. The marks are of one lane and in order.
pub fn placed<'a>(marks: &'a [Mark], scale: &Scale) -> Vec<Placed<'a>> {
    let mut found = Vec::new();
    let mut start = 0;
    for end in 1..=marks.len() {
        let next = marks.get(end);
        if next.is_some_and(|next| next.tick == marks[end - 1].tick) {
            continue;
        }
        let x = scale.x(marks[start].tick);
        let room = next.map_or(scale.width + OVERHANG, |next| scale.x(next.tick)) - x;
        let group = &marks[start..end];
        let one_instant = group[0].tick == group[group.len() - 1].tick;
        if one_instant && group.iter().map(width_of).sum::<f64>() <= room {
            found.extend(singly(group, x));
        } else if width_of_several(group.len()) <= room || next.is_none() {
            found.push(Placed { x, marks: group });
        } else {
            continue;
        }
        start = end;
    }
    found
}

fn singly(group: &[Mark], mut x: f64) -> Vec<Placed<'_>> {
    let mut found = Vec::new();
    for mark in group.chunks(1) {
        found.push(Placed { x, marks: mark });
        x += width_of(&mark[0]);
    }
    found
}

#[cfg(test)]
mod tests {
    use super::{placed, Mark, Sign};
    use crate::scale::Scale;

    fn marks(ticks: &[u32]) -> Vec<Mark> {
        let mark = |(number, &tick): (usize, &u32)| Mark {
            sign: Sign::Granted,
            tick,
            number,
            entry: None,
        };
        ticks.iter().enumerate().map(mark).collect()
    }

    #[test]
    fn none_is_lost_and_none_overlap() {
        let scale = Scale {
            from: 0,
            to: 100,
            width: 1000.0,
        };
        for ticks in [
            &[][..],
            &[0],
            &[0, 0, 0, 1],
            &[0, 1, 2, 3, 50],
            &[100, 100, 100, 100],
            &[5; 40],
        ] {
            let marks = marks(ticks);
            let placed = placed(&marks, &scale);
            assert_eq!(
                placed
                    .iter()
                    .map(|placed| placed.marks.len())
                    .sum::<usize>(),
                ticks.len()
            );
            for pair in placed.windows(2) {
                assert!(pair[1].x - pair[0].x >= 17.0, "{ticks:?}: {placed:?}");
            }
        }
    }

    #[test]
    fn marks_at_one_instant_stand_side_by_side() {
        let scale = Scale {
            from: 0,
            to: 10,
            width: 1000.0,
        };
        assert_eq!(placed(&marks(&[2, 2, 2]), &scale).len(), 3);
        assert_eq!(placed(&marks(&[2; 60]), &scale).len(), 1);
    }
}
