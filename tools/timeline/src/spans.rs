//! Lengths of time over which something stays the same.
//!
//! Assumes that the clock of a view never goes back, as it does not in the library's states.

use crate::run::View;
use crate::snapshot::{Phase, Server, Snapshot};
use vesztamor::Answer;

#[derive(Clone, Debug, PartialEq, Eq)]
pub struct Span<K> {
    pub from: u32,
    pub to: u32,
    pub what: K,
}

/// The spans of what is seen in the states, in order; where nothing is seen there is none. Time
/// passes in an elapse, and over it the state before it stands. Neighbours that are alike are one.
pub fn spans<K: PartialEq>(view: &View, seen: impl Fn(&Snapshot) -> Option<K>) -> Vec<Span<K>> {
    let mut found: Vec<Span<K>> = Vec::new();
    let mut state = view.before;
    for moment in view.moments {
        let from = moment.start.max(view.from);
        let to = moment.after.clock.min(view.to);
        if from < to {
            if let Some(what) = seen(state) {
                match found.last_mut() {
                    Some(last) if last.to == from && last.what == what => last.to = to,
                    _ => found.push(Span { from, to, what }),
                }
            }
        }
        state = &moment.after;
    }
    found
}

/// What a server does, for its lane; an Idle server does nothing.
#[derive(Clone, Copy, Debug, PartialEq, Eq)]
pub enum Doing {
    Active,
    Executes(u32),
    Spins(u32),
    Recharging,
}

pub fn doing(server: &Server) -> Option<Doing> {
    match (server.phase, server.doing) {
        (_, Answer::Executes(task)) => Some(Doing::Executes(task)),
        (_, Answer::Spins(task)) => Some(Doing::Spins(task)),
        (Phase::Active, _) => Some(Doing::Active),
        (Phase::Recharging, _) => Some(Doing::Recharging),
        _ => None,
    }
}

/// The corners of a server's budget over the clock.
pub fn budget(view: &View, number: usize) -> Vec<(u32, u32)> {
    let left = |state: &Snapshot| state.servers[number].budget;
    let mut points = vec![(view.before.clock, left(view.before))];
    for moment in view.moments {
        let point = (moment.after.clock, left(&moment.after));
        if points.last() == Some(&point) {
            continue;
        }
        if let [.., first, second] = points[..] {
            if in_line(first, second, point) {
                points.pop();
            }
        }
        points.push(point);
    }
    clipped(&points, view.from, view.to)
}

/// Whether the line from the first to the last goes through the second: level, or down by a tick
/// in each tick.
fn in_line(first: (u32, u32), second: (u32, u32), last: (u32, u32)) -> bool {
    let step =
        |a: (u32, u32), b: (u32, u32)| (u64::from(b.0 - a.0), i64::from(b.1) - i64::from(a.1));
    let ((across, down), (further, lower)) = (step(first, second), step(second, last));
    across > 0
        && further > 0
        && ((down == 0 && lower == 0) || (down == -(across as i64) && lower == -(further as i64)))
}

/// The part of a line between two ticks; its pieces are level, upright or fall by a tick in each.
fn clipped(points: &[(u32, u32)], from: u32, to: u32) -> Vec<(u32, u32)> {
    let mut kept = Vec::new();
    let mut add = |point| {
        if kept.last() != Some(&point) {
            kept.push(point);
        }
    };
    for pair in points.windows(2) {
        let ((start, high), (end, low)) = (pair[0], pair[1]);
        if end < from || start > to {
            continue;
        }
        let fall = |ticks: u32| if low < high { high - ticks } else { high };
        if start < end {
            add((start.max(from), fall(from.saturating_sub(start))));
            add((end.min(to), fall(end.min(to) - start)));
        } else {
            add((start, high));
            add((end, low));
        }
    }
    kept
}
