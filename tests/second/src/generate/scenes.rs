//! Scenes: short lists of events that lead straight to deep states, such as long chains, waiters
//! that hold others, sleeping holders and servers that reach 0 together.
//!
//! Assumes nothing; an event that a scene asks for and the state refuses is kept in the list, as
//! refused events belong to a run too.

use super::random::Random;
use super::tables::{any_counts, good_table, Pace};
use crate::state::{
    fresh, Counts, Mode, Phase, ResourceNumber, ServerNumber, State, Table, TaskNumber,
    CLOCK_LIMIT, PROCESSOR_LIMIT, RESOURCE_LIMIT, TASK_LIMIT, TICK_LIMIT,
};
use crate::step::{step_sound, Event};

/// A list of events under way, with the state that it leads to.
pub struct Director {
    pub table: Table,
    pub state: State,
    pub events: Vec<Event>,
}

#[derive(Clone, Copy, Debug, PartialEq, Eq)]
pub enum Scene {
    /// Nothing is prepared.
    Empty,
    /// One chain, up to fifteen links, made in any order.
    Chain,
    /// Many holders that wait for one another.
    Forest,
    /// The same, and ends of chains go to sleep.
    Sleepers,
    /// One task holds all resources, and many wait for it, often all in one queue.
    Hoard,
    /// One holder with waiters spinning at the same budget.
    Together,
    /// The clock is near its limit.
    Late,
}

impl Scene {
    /// Any scene; the late one is long and comes seldom.
    pub fn any(random: &mut Random) -> Scene {
        if random.one_in(60) {
            return Scene::Late;
        }
        let scenes = [
            Scene::Empty,
            Scene::Chain,
            Scene::Forest,
            Scene::Sleepers,
            Scene::Hoard,
            Scene::Together,
        ];
        scenes[random.index(scenes.len())]
    }

    pub fn prepare(self, random: &mut Random) -> Director {
        match self {
            Scene::Empty => empty(random),
            Scene::Chain => chain(random),
            Scene::Forest => forest(random),
            Scene::Sleepers => sleepers(random),
            Scene::Hoard => hoard(random),
            Scene::Together => together(random),
            Scene::Late => late(random),
        }
    }
}

impl Director {
    fn new(table: Table) -> Director {
        let (state, _) = fresh(&table);
        Director {
            table,
            state,
            events: Vec::new(),
        }
    }

    pub fn act(&mut self, event: Event) {
        // The answer is not needed here: whoever replays the events asks for it again.
        let _ = step_sound(&mut self.state, event);
        self.events.push(event);
    }

    /// Brings a task that waits for nothing to execute, as far as one of its servers is not
    /// Recharging.
    fn bring_to_execute(&mut self, task: TaskNumber) {
        if self.state[task].mode == Mode::Suspended {
            self.act(Event::Wake(task));
        }
        if self.state[task].runs.is_some() {
            return;
        }
        if self.state.running_count() == usize::from(self.state.processors) {
            let running = self.first_server(|state, server| state[server].phase == Phase::Running);
            if let Some(server) = running {
                self.act(Event::Preempt(server));
            }
        }
        let active = self.first_server(|state, server| {
            state[server].phase == Phase::Active && state.served_by(server) == task
        });
        if let Some(server) = active {
            self.act(Event::Dispatch(server));
        }
    }

    fn first_server(&self, wanted: impl Fn(&State, ServerNumber) -> bool) -> Option<ServerNumber> {
        let mut servers = self.state.server_numbers();
        servers.find(|&server| wanted(&self.state, server))
    }

    fn lock(&mut self, task: TaskNumber, resource: ResourceNumber) {
        self.bring_to_execute(task);
        self.act(Event::Lock(task, resource));
    }

    /// The tasks that wait for nothing.
    fn unblocked_tasks(&self) -> Vec<TaskNumber> {
        let waits = |task: TaskNumber| matches!(self.state[task].mode, Mode::Waiting(_));
        self.state
            .task_numbers()
            .filter(|&task| !waits(task))
            .collect()
    }
}

fn empty(random: &mut Random) -> Director {
    let counts = any_counts(random);
    let pace = Pace::any(random);
    let open = random.one_in(2);
    Director::new(good_table(random, counts, pace, open))
}

fn shuffled(random: &mut Random, count: u16) -> Vec<u16> {
    let mut numbers: Vec<u16> = (0..count).collect();
    random.shuffle(&mut numbers);
    numbers
}

fn chain(random: &mut Random) -> Director {
    let longest = TASK_LIMIT as u16 - 1;
    let links = if random.one_in(3) {
        longest
    } else {
        random.number(1, longest)
    };
    let counts = Counts {
        processors: random.number(1, PROCESSOR_LIMIT as u16),
        tasks: random.number(links + 1, TASK_LIMIT as u16),
        resources: random.number(links, RESOURCE_LIMIT as u16),
    };
    let pace = Pace::any(random);
    let mut director = Director::new(good_table(random, counts, pace, true));
    let tasks = shuffled(random, counts.tasks);
    let resources = shuffled(random, counts.resources);
    let resource = |place: u16| ResourceNumber(resources[usize::from(place)]);
    let task = |place: u16| TaskNumber(tasks[usize::from(place)]);
    for place in 0..links {
        director.lock(task(place + 1), resource(place));
    }
    for place in shuffled(random, links) {
        director.lock(task(place), resource(place));
    }
    director
}

fn forest(random: &mut Random) -> Director {
    let counts = Counts {
        processors: random.number(1, PROCESSOR_LIMIT as u16),
        tasks: random.number(3, TASK_LIMIT as u16),
        resources: random.number(2, RESOURCE_LIMIT as u16),
    };
    let pace = Pace::any(random);
    let open = !random.one_in(3);
    let mut director = Director::new(good_table(random, counts, pace, open));
    for resource in shuffled(random, counts.resources) {
        let task = random.number(0, counts.tasks - 1);
        director.lock(TaskNumber(task), ResourceNumber(resource));
    }
    for task in shuffled(random, counts.tasks) {
        if director.unblocked_tasks().contains(&TaskNumber(task)) {
            let resource = random.number(0, counts.resources - 1);
            director.lock(TaskNumber(task), ResourceNumber(resource));
        }
    }
    director
}

fn sleepers(random: &mut Random) -> Director {
    let mut director = forest(random);
    for _ in 0..random.between(1, 3) {
        if let Some(task) = random.pick(&director.unblocked_tasks()) {
            director.bring_to_execute(task);
            director.act(Event::Suspend(task));
        }
    }
    for _ in 0..random.between(0, 3) {
        if let Some(task) = random.pick(&director.unblocked_tasks()) {
            let last_resource = director.state.resources - 1;
            let resource = random.number(0, last_resource);
            director.lock(task, ResourceNumber(resource));
        }
    }
    director
}

fn hoard(random: &mut Random) -> Director {
    let (most_tasks, most_resources) = (TASK_LIMIT as u16, RESOURCE_LIMIT as u16);
    let (fewest_tasks, fewest_resources) = if random.one_in(2) {
        (most_tasks, most_resources)
    } else {
        (2, 1)
    };
    let counts = Counts {
        processors: random.number(1, PROCESSOR_LIMIT as u16),
        tasks: random.number(fewest_tasks, most_tasks),
        resources: random.number(fewest_resources, most_resources),
    };
    let pace = Pace::any(random);
    let mut director = Director::new(good_table(random, counts, pace, true));
    let players = shuffled(random, counts.tasks);
    for resource in shuffled(random, counts.resources) {
        director.lock(TaskNumber(players[0]), ResourceNumber(resource));
    }
    let one_queue = random.one_in(2);
    let mut resource = random.number(0, counts.resources - 1);
    for &task in &players[1..] {
        director.lock(TaskNumber(task), ResourceNumber(resource));
        if !one_queue {
            resource = random.number(0, counts.resources - 1);
        }
    }
    director
}

fn together(random: &mut Random) -> Director {
    let processors = random.number(2, PROCESSOR_LIMIT as u16);
    let counts = Counts {
        processors,
        tasks: random.number(processors, TASK_LIMIT as u16),
        resources: random.number(1, RESOURCE_LIMIT as u16),
    };
    let mut director = Director::new(good_table(random, counts, Pace::Even, true));
    let resource = ResourceNumber(random.number(0, counts.resources - 1));
    let players = shuffled(random, counts.tasks);
    for &task in players.iter().take(usize::from(processors)) {
        director.lock(TaskNumber(task), resource);
    }
    let quota = director.table.rows[0].quota;
    if quota > 1 && random.one_in(2) {
        director.act(Event::Elapse(random.between(1, quota - 1)));
    }
    if random.one_in(2) {
        director.act(Event::Preempt(ServerNumber(players[0])));
    }
    let left = director.state.server[usize::from(players[1])].budget;
    director.act(Event::Elapse(left));
    director
}

fn late(random: &mut Random) -> Director {
    let mut director = empty(random);
    let short_of_limit = random.between(0, 3) * random.between(1, TICK_LIMIT);
    while director.state.clock < CLOCK_LIMIT - TICK_LIMIT - short_of_limit {
        director.act(Event::Elapse(TICK_LIMIT));
    }
    let left = CLOCK_LIMIT - director.state.clock;
    director.act(Event::Elapse(left.min(TICK_LIMIT) - random.between(0, 12)));
    director
}
