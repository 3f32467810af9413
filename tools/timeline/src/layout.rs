//! Where lanes lie, from the top down. A lane has a row for marks if it has any, its boxes, and a
//! strip under them: a server's budget, what a task holds, a resource's queue.
//!
//! Assumes nothing.

use crate::lanes::Lane;

#[derive(Clone, Copy, Debug, PartialEq, Eq)]
pub enum Entry {
    Server(u16),
    Task(u16),
    Resource(u16),
}

impl Entry {
    pub fn number(self) -> u16 {
        match self {
            Entry::Server(number) | Entry::Task(number) | Entry::Resource(number) => number,
        }
    }

    pub fn word(self) -> &'static str {
        match self {
            Entry::Server(_) => "server",
            Entry::Task(_) => "task",
            Entry::Resource(_) => "resource",
        }
    }

    /// The name of its lane in a file.
    pub fn id(self) -> String {
        format!("{}-{}", self.word(), self.number())
    }
}

pub const MARK_ROW: f64 = 13.0;
pub const BOX: f64 = 19.0;
pub const BUDGET: f64 = 15.0;
pub const STRIP: f64 = 12.0;
const GAP: f64 = 8.0;
const HEADING: f64 = 24.0;

/// A lane's places, from the top of all lanes.
#[derive(Clone, Copy, Debug)]
pub struct Place {
    pub top: f64,
    pub boxes: f64,
    pub strip: f64,
    pub bottom: f64,
}

#[derive(Clone, Debug)]
pub struct Layout {
    /// One for each lane.
    pub places: Vec<Place>,
    /// The headings of the three kinds, each with its top.
    pub headings: Vec<(f64, &'static str)>,
    pub height: f64,
}

pub fn layout(lanes: &[Lane]) -> Layout {
    let mut top = 0.0;
    let mut found = Layout {
        places: Vec::new(),
        headings: Vec::new(),
        height: 0.0,
    };
    let mut word = "";
    for lane in lanes {
        if lane.entry.word() != word {
            word = lane.entry.word();
            found.headings.push((top, heading(lane.entry)));
            top += HEADING;
        }
        let place = place(lane, top);
        top = place.bottom;
        found.places.push(place);
    }
    found.height = top;
    found
}

fn heading(entry: Entry) -> &'static str {
    match entry {
        Entry::Server(_) => "Servers: whose task executes, and the budget",
        Entry::Task(_) => "Tasks: where each executes, what it waits for, what it holds",
        Entry::Resource(_) => "Resources: the owner, and the queue",
    }
}

fn place(lane: &Lane, top: f64) -> Place {
    let boxes = if lane.marks.is_empty() {
        top
    } else {
        top + MARK_ROW
    };
    let strip = boxes + BOX + 1.0;
    let under = match lane.entry {
        Entry::Server(_) => BUDGET,
        _ if lane.strip.is_empty() => 0.0,
        _ => STRIP,
    };
    Place {
        top,
        boxes,
        strip,
        bottom: strip + under + GAP,
    }
}
