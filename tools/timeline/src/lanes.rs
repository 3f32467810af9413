//! What each lane shows: boxes with their labels, the strip under them, lines and marks. No places
//! yet: `layout` and `plot` give them.
//!
//! Assumes nothing.

use crate::layout::Entry;
use crate::marks::{marks, Mark};
use crate::names::Names;
use crate::run::{Moment, View};
use crate::snapshot::{Mode, Phase, Snapshot};
use crate::spans::{budget, doing, spans, Doing, Span};
use crate::words::listed;
use vesztamor::{Answer, Event};

/// How something is drawn and what it says.
#[derive(Clone, Debug, PartialEq, Eq)]
pub struct Look {
    pub class: String,
    /// The longest first; the first that fits is written.
    pub labels: Vec<String>,
    /// A whole sentence.
    pub title: String,
}

#[derive(Clone, Debug)]
pub struct Lane {
    pub entry: Entry,
    pub boxes: Vec<Span<Look>>,
    /// Held resources or a queue.
    pub strip: Vec<Span<Look>>,
    /// A server's budget, and what its highest is.
    pub budget: Vec<(u32, u32)>,
    pub quota: u32,
    pub deadlines: Vec<u32>,
    pub recharges: Vec<u32>,
    pub marks: Vec<Mark>,
    /// How the lane's entry is after the last event.
    pub last: Option<Look>,
    /// Its numbers then, one or two lines.
    pub accounts: Vec<String>,
}

/// All lanes of a view: servers, tasks, resources.
pub fn lanes(view: &View, names: &Names) -> Vec<Lane> {
    let all = marks(view);
    let counts = view.before;
    let servers = (0..counts.servers.len() as u16).map(|number| server_lane(view, names, number));
    let tasks = (0..counts.tasks.len() as u16).map(|number| task_lane(view, names, number));
    let resources =
        (0..counts.resources.len() as u16).map(|number| resource_lane(view, names, number));
    let mut lanes: Vec<Lane> = servers.chain(tasks).chain(resources).collect();
    for lane in &mut lanes {
        lane.marks = all
            .iter()
            .filter(|mark| mark.entry == Some(lane.entry))
            .copied()
            .collect();
    }
    lanes
}

/// What stands left of a lane.
pub struct Head {
    pub sign: String,
    pub name: String,
    /// What the strip is.
    pub under: String,
    /// All of it, and what the table says of the entry.
    pub title: String,
}

pub fn head(view: &View, names: &Names, entry: Entry) -> Head {
    let number = entry.number();
    let table = from_table(view, names, entry);
    let (letter, name, under) = match entry {
        Entry::Server(_) => ("S", names.task_name(number), table.as_str()),
        Entry::Task(_) => ("T", names.task_name(number), "holds"),
        Entry::Resource(_) => ("R", names.resource_name(number), "queue"),
    };
    let (sign, under) = (format!("{letter}{number}"), under.to_string());
    let name = name.unwrap_or_default().to_string();
    let known = [sign.clone(), name.clone(), table].into_iter();
    let title = listed(known.filter(|part| !part.is_empty()));
    Head {
        sign,
        name,
        under,
        title,
    }
}

/// What the table says of an entry.
fn from_table(view: &View, names: &Names, entry: Entry) -> String {
    let number = usize::from(entry.number());
    match entry {
        Entry::Server(_) => {
            let server = &view.before.servers[number];
            format!("Q {}, P {}", server.quota, server.period)
        }
        Entry::Task(_) => {
            let set = view.before.tasks[number].declared;
            let declared = (0..u16::BITS as u16).filter(|resource| set >> resource & 1 == 1);
            match set {
                0 => "declares nothing".to_string(),
                _ => format!("declares {}", listed(declared.map(|n| names.resource(n)))),
            }
        }
        Entry::Resource(_) => String::new(),
    }
}

/// A lane of boxes, from what is seen in the states and how that looks.
fn lane<K: PartialEq>(
    view: &View,
    entry: Entry,
    seen: impl Fn(&Snapshot) -> Option<K>,
    look: impl Fn(&K) -> Look,
) -> Lane {
    Lane {
        entry,
        last: seen(view.last()).map(|what| look(&what)),
        boxes: looks(view, seen, look),
        strip: Vec::new(),
        budget: Vec::new(),
        quota: 0,
        deadlines: Vec::new(),
        recharges: Vec::new(),
        marks: Vec::new(),
        accounts: Vec::new(),
    }
}

fn looks<K: PartialEq>(
    view: &View,
    seen: impl Fn(&Snapshot) -> Option<K>,
    look: impl Fn(&K) -> Look,
) -> Vec<Span<Look>> {
    let look = |span: Span<K>| Span {
        from: span.from,
        to: span.to,
        what: look(&span.what),
    };
    spans(view, seen).into_iter().map(look).collect()
}

fn server_lane(view: &View, names: &Names, number: u16) -> Lane {
    let index = usize::from(number);
    let seen = |state: &Snapshot| doing(&state.servers[index]);
    let look = |doing: &Doing| server_look(*doing, names, number);
    let last = view.last().servers[index];
    Lane {
        budget: budget(view, index),
        quota: last.quota,
        deadlines: deadlines(view, index),
        recharges: recharges(view, number),
        accounts: vec![
            format!("own {}, lent {}, spin {}", last.own, last.lent, last.spin),
            format!("budget {}, deadline {}", last.budget, last.deadline),
        ],
        ..lane(view, Entry::Server(number), seen, look)
    }
}

fn server_look(doing: Doing, names: &Names, server: u16) -> Look {
    let who = names.server(server);
    match doing {
        Doing::Executes(task) => {
            let task = task as u16;
            let lent = task != server;
            Look {
                class: format!("x t{task}{}", if lent { " lent" } else { "" }),
                labels: task_labels(names, task),
                title: match lent {
                    true => format!("{who} executes {}: lent", names.task(task)),
                    false => format!("{who} executes its own task"),
                },
            }
        }
        Doing::Spins(task) => {
            let task = task as u16;
            let mut labels = vec![format!("spins for {}", names.task(task))];
            labels.extend(task_labels(names, task));
            Look {
                class: format!("s t{task}"),
                labels,
                title: format!("{who} spins for {}", names.task(task)),
            }
        }
        Doing::Active => Look {
            class: "a".to_string(),
            labels: vec!["Active".to_string()],
            title: format!("{who} is Active and waits for a processor"),
        },
        Doing::Recharging => Look {
            class: "r".to_string(),
            labels: vec!["Recharging".to_string()],
            title: format!("{who} is Recharging"),
        },
    }
}

/// A name if there is one, then the sign, then the number alone.
fn task_labels(names: &Names, task: u16) -> Vec<String> {
    let mut labels: Vec<String> = names
        .task_name(task)
        .map(str::to_string)
        .into_iter()
        .collect();
    labels.extend([format!("T{task}"), task.to_string()]);
    labels
}

/// The deadlines that the clock reached while they were the server's, and it was not Idle.
fn deadlines(view: &View, number: usize) -> Vec<u32> {
    let deadline = |state: &Snapshot| {
        let server = &state.servers[number];
        (server.phase != Phase::Idle).then_some(server.deadline)
    };
    let all = spans(view, deadline);
    let reached = all
        .iter()
        .filter(|span| (span.from..=span.to).contains(&span.what));
    reached.map(|span| span.what).collect()
}

/// When the server was recharged.
fn recharges(view: &View, number: u16) -> Vec<u32> {
    let recharge = |moment: &&Moment| {
        let asked = moment.event == Event::Recharge { server: number };
        asked && !matches!(moment.answer, Answer::Refused(_)) && moment.after.clock >= view.from
    };
    view.moments
        .iter()
        .filter(recharge)
        .map(|moment| moment.after.clock)
        .collect()
}

/// What a task does, for its lane; a suspended task does nothing.
#[derive(Clone, Debug, PartialEq, Eq)]
enum Course {
    Executes {
        server: u16,
    },
    Ready,
    /// Behind the owner and those that came before it.
    Waits {
        resource: u16,
        behind: Vec<u16>,
    },
}

fn course(state: &Snapshot, number: u16) -> Option<Course> {
    let task = &state.tasks[usize::from(number)];
    match (task.mode, task.executor) {
        (Mode::Suspended, _) => None,
        (Mode::Ready, Some(server)) => Some(Course::Executes { server }),
        (Mode::Ready, None) => Some(Course::Ready),
        (Mode::Waiting(resource), _) => {
            let wanted = &state.resources[usize::from(resource)];
            let earlier = wanted
                .queue
                .iter()
                .copied()
                .take_while(|&other| other != number);
            let behind = wanted.owner.into_iter().chain(earlier).collect();
            Some(Course::Waits { resource, behind })
        }
    }
}

fn task_lane(view: &View, names: &Names, number: u16) -> Lane {
    let index = usize::from(number);
    let seen = |state: &Snapshot| course(state, number);
    let held = |state: &Snapshot| some(&state.tasks[index].held);
    let executed = view.last().tasks[index].executed;
    Lane {
        strip: looks(view, held, |held| held_look(held, names, number)),
        accounts: vec![format!("executed {executed}")],
        ..lane(view, Entry::Task(number), seen, |course| {
            task_look(course, names, number)
        })
    }
}

/// A stack or a queue that is not empty.
fn some(numbers: &[u16]) -> Option<Vec<u16>> {
    (!numbers.is_empty()).then(|| numbers.to_vec())
}

fn task_look(course: &Course, names: &Names, number: u16) -> Look {
    let who = names.task(number);
    match course {
        Course::Executes { server } => Look {
            class: format!(
                "x t{number}{}",
                if *server == number { "" } else { " lent" }
            ),
            labels: vec![
                format!("in {}", names.server(*server)),
                format!("in S{server}"),
                format!("S{server}"),
                server.to_string(),
            ],
            title: format!("{who} executes in {}", names.server(*server)),
        },
        Course::Ready => Look {
            class: "a".to_string(),
            labels: vec!["ready".to_string()],
            title: format!("{who} is ready, and no Running server serves it"),
        },
        Course::Waits { resource, behind } => waiting_look(names, number, *resource, behind),
    }
}

fn waiting_look(names: &Names, number: u16, resource: u16, behind: &[u16]) -> Look {
    let signs = listed(behind.iter().map(|task| format!("T{task}")));
    let behind = listed(behind.iter().map(|&task| names.task(task)));
    let what = names.resource(resource);
    Look {
        class: "w".to_string(),
        labels: vec![
            format!("waits for {what} behind {behind}"),
            format!("{what}, behind {behind}"),
            format!("R{resource}, behind {signs}"),
            format!("R{resource}"),
        ],
        title: format!("{} waits for {what} behind {behind}", names.task(number)),
    }
}

fn held_look(held: &[u16], names: &Names, number: u16) -> Look {
    let whole = listed(held.iter().map(|&resource| names.resource(resource)));
    let signs = listed(held.iter().map(|resource| format!("R{resource}")));
    Look {
        class: "h".to_string(),
        title: format!("{} holds {whole}", names.task(number)),
        labels: vec![whole, signs, held.len().to_string()],
    }
}

fn resource_lane(view: &View, names: &Names, number: u16) -> Lane {
    let index = usize::from(number);
    let seen = |state: &Snapshot| state.resources[index].owner;
    let look = |owner: &u16| Look {
        class: format!("x t{owner}"),
        labels: task_labels(names, *owner),
        title: format!("{} owns {}", names.task(*owner), names.resource(number)),
    };
    let queue = |state: &Snapshot| some(&state.resources[index].queue);
    let last = &view.last().resources[index];
    let owner = last.owner.map_or("free".to_string(), |task| {
        format!("owner {}", names.task(task))
    });
    Lane {
        strip: looks(view, queue, |queue| queue_look(queue, names, number)),
        accounts: vec![owner, format!("queue {}", last.queue.len())],
        ..lane(view, Entry::Resource(number), seen, look)
    }
}

fn queue_look(queue: &[u16], names: &Names, number: u16) -> Look {
    let waiting = listed(queue.iter().map(|&task| names.task(task)));
    let signs = listed(queue.iter().map(|task| format!("T{task}")));
    let count = queue.len();
    Look {
        class: "q".to_string(),
        labels: vec![
            format!("{count}: {waiting}"),
            format!("{count}: {signs}"),
            count.to_string(),
        ],
        title: format!(
            "{count} in the queue of {}: {waiting}",
            names.resource(number)
        ),
    }
}
