//! When a state is sound (rules 4.1 to 4.16), clause by clause, so that one can ask which clauses a
//! given state breaks.
//!
//! Assumes nothing of the state. Counts out of range break their own clause; the other clauses
//! then speak of the entries that the arrays have. That who waits does not sleep needs no clause, as
//! a task is in one of three modes (rule 2.2).

use super::{
    existing_bits, Mode, Phase, Reservation, ResourceNumber, Server, ServerNumber, State,
    TaskNumber, CLOCK_LIMIT, PROCESSOR_LIMIT, RESOURCE_LIMIT, TASK_LIMIT,
};

/// One clause of soundness.
#[derive(Clone, Copy, Debug, PartialEq, Eq, PartialOrd, Ord)]
pub enum Clause {
    ProcessorsInRange,
    TasksInRange,
    ResourcesInRange,
    ClockInRange,
    ReservationsInRange,
    DeclaredSetsInRange,
    DeadlinesWithinPeriod,
    BudgetsWithinQuota,
    EmptyExactlyWhenRecharging,
    ProcessorsSuffice,
    StacksAgreeWithOwners,
    QueuesAgreeWithWaits,
    UnownedHaveNoQueue,
    HeldAreDeclared,
    AwaitedAreDeclared,
    NoChainCloses,
    IdleExactlyWhenServedSleeps,
    ExecutesOnlyWhereServed,
    ServedByRunningExecutes,
    AccountsWithinClock,
    ServerTotalsWithinClock,
}

impl Clause {
    pub const ALL: [Clause; 21] = [
        Clause::ProcessorsInRange,
        Clause::TasksInRange,
        Clause::ResourcesInRange,
        Clause::ClockInRange,
        Clause::ReservationsInRange,
        Clause::DeclaredSetsInRange,
        Clause::DeadlinesWithinPeriod,
        Clause::BudgetsWithinQuota,
        Clause::EmptyExactlyWhenRecharging,
        Clause::ProcessorsSuffice,
        Clause::StacksAgreeWithOwners,
        Clause::QueuesAgreeWithWaits,
        Clause::UnownedHaveNoQueue,
        Clause::HeldAreDeclared,
        Clause::AwaitedAreDeclared,
        Clause::NoChainCloses,
        Clause::IdleExactlyWhenServedSleeps,
        Clause::ExecutesOnlyWhereServed,
        Clause::ServedByRunningExecutes,
        Clause::AccountsWithinClock,
        Clause::ServerTotalsWithinClock,
    ];

    fn holds(self, state: &State, served: &Served) -> bool {
        match self {
            Clause::ProcessorsInRange => processors_in_range(state),
            Clause::TasksInRange => tasks_in_range(state),
            Clause::ResourcesInRange => resources_in_range(state),
            Clause::ClockInRange => clock_in_range(state),
            Clause::ReservationsInRange => reservations_in_range(state),
            Clause::DeclaredSetsInRange => declared_sets_in_range(state),
            Clause::DeadlinesWithinPeriod => deadlines_within_period(state),
            Clause::BudgetsWithinQuota => budgets_within_quota(state),
            Clause::EmptyExactlyWhenRecharging => empty_exactly_when_recharging(state),
            Clause::ProcessorsSuffice => processors_suffice(state),
            Clause::StacksAgreeWithOwners => stacks_agree_with_owners(state),
            Clause::QueuesAgreeWithWaits => queues_agree_with_waits(state),
            Clause::UnownedHaveNoQueue => unowned_have_no_queue(state),
            Clause::HeldAreDeclared => held_are_declared(state),
            Clause::AwaitedAreDeclared => awaited_are_declared(state),
            Clause::NoChainCloses => no_chain_closes(state),
            Clause::IdleExactlyWhenServedSleeps => idle_exactly_when_served_sleeps(state, served),
            Clause::ExecutesOnlyWhereServed => executes_only_where_served(state, served),
            Clause::ServedByRunningExecutes => served_by_running_executes(state, served),
            Clause::AccountsWithinClock => accounts_within_clock(state),
            Clause::ServerTotalsWithinClock => server_totals_within_clock(state),
        }
    }
}

/// The task that each server serves, walked once for all clauses.
struct Served([TaskNumber; TASK_LIMIT]);

impl Served {
    fn of(state: &State) -> Served {
        let mut ends = [TaskNumber(0); TASK_LIMIT];
        for server in state.server_numbers() {
            ends[server.index()] = state.served_by(server);
        }
        Served(ends)
    }

    fn by(&self, server: ServerNumber) -> TaskNumber {
        self.0[server.index()]
    }
}

impl State {
    pub fn is_sound(&self) -> bool {
        let served = Served::of(self);
        Clause::ALL.iter().all(|clause| clause.holds(self, &served))
    }

    /// The clauses that this state breaks, in the order of `Clause::ALL`.
    pub fn broken_clauses(&self) -> Vec<Clause> {
        let served = Served::of(self);
        Clause::ALL
            .into_iter()
            .filter(|clause| !clause.holds(self, &served))
            .collect()
    }
}

fn processors_in_range(state: &State) -> bool {
    (1..=PROCESSOR_LIMIT).contains(&usize::from(state.processors))
}

fn tasks_in_range(state: &State) -> bool {
    (1..=TASK_LIMIT).contains(&usize::from(state.tasks))
}

fn resources_in_range(state: &State) -> bool {
    usize::from(state.resources) <= RESOURCE_LIMIT
}

/// The clock's limit belongs to the sizes (rule 4.1).
fn clock_in_range(state: &State) -> bool {
    state.clock <= CLOCK_LIMIT
}

fn reservations_in_range(state: &State) -> bool {
    state.server_numbers().all(|server| {
        let reservation = Reservation {
            quota: state[server].quota,
            period: state[server].period,
            declared: 0,
        };
        reservation.is_in_range()
    })
}

fn declared_sets_in_range(state: &State) -> bool {
    let existing = existing_bits(state.resources);
    state
        .task_numbers()
        .all(|task| state[task].declared & !existing == 0)
}

/// One period from now at the latest, with no lower bound but 0 (rule 4.3).
fn deadlines_within_period(state: &State) -> bool {
    state.server_numbers().all(|server| {
        let latest = u64::from(state.clock) + u64::from(state[server].period);
        u64::from(state[server].deadline) <= latest
    })
}

fn budgets_within_quota(state: &State) -> bool {
    state
        .server_numbers()
        .all(|server| state[server].budget <= state[server].quota)
}

fn empty_exactly_when_recharging(state: &State) -> bool {
    state
        .server_numbers()
        .all(|server| (state[server].budget == 0) == (state[server].phase == Phase::Recharging))
}

fn processors_suffice(state: &State) -> bool {
    state.running_count() <= usize::from(state.processors)
}

/// A resource is on a task's stack, once, exactly when that task owns it; the order is free
/// (rule 4.8).
fn stacks_agree_with_owners(state: &State) -> bool {
    let mut owned = [0u16; TASK_LIMIT];
    for resource in state.resource_numbers() {
        if let Some(owner) = state[resource].owner {
            if !state.has_task(owner) {
                return false;
            }
            owned[owner.index()] |= 1 << resource.0;
        }
    }
    state.task_numbers().all(|task| {
        let depth_in_range = usize::from(state[task].depth) <= RESOURCE_LIMIT;
        let held = state[task].stack().iter().map(|resource| resource.0);
        depth_in_range && distinct_bits(held, state.resource_count()) == Some(owned[task.index()])
    })
}

/// A task is in a resource's queue, once, exactly when it waits for it; the order is free
/// (rule 4.9).
fn queues_agree_with_waits(state: &State) -> bool {
    let mut awaiting = [0u16; RESOURCE_LIMIT];
    for task in state.task_numbers() {
        if let Mode::Waiting(resource) = state[task].mode {
            if !state.has_resource(resource) {
                return false;
            }
            awaiting[resource.index()] |= 1 << task.0;
        }
    }
    state.resource_numbers().all(|resource| {
        let count_in_range = usize::from(state[resource].waiting) <= TASK_LIMIT;
        let waiters = state[resource].waiters().iter().map(|task| task.0);
        count_in_range
            && distinct_bits(waiters, state.task_count()) == Some(awaiting[resource.index()])
    })
}

/// The numbers as a set of bits, if all are below the count (at most 16) and none comes twice.
fn distinct_bits(numbers: impl Iterator<Item = u16>, count: u16) -> Option<u16> {
    let mut bits = 0;
    for number in numbers {
        if number >= count || bits >> number & 1 == 1 {
            return None;
        }
        bits |= 1 << number;
    }
    Some(bits)
}

fn unowned_have_no_queue(state: &State) -> bool {
    state
        .resource_numbers()
        .all(|resource| state[resource].owner.is_some() || state[resource].waiting == 0)
}

fn held_are_declared(state: &State) -> bool {
    let declares = |task: TaskNumber, resource: &ResourceNumber| state[task].declares(*resource);
    state.task_numbers().all(|task| {
        let mut held = state[task].stack().iter();
        held.all(|resource| declares(task, resource))
    })
}

fn awaited_are_declared(state: &State) -> bool {
    state.task_numbers().all(|task| match state[task].mode {
        Mode::Waiting(resource) => state[task].declares(resource),
        Mode::Suspended | Mode::Ready => true,
    })
}

/// A chain that takes as many links as there are tasks meets a task twice (rule 4.12).
fn no_chain_closes(state: &State) -> bool {
    state.task_numbers().all(|start| {
        let mut task = start;
        for _ in state.task_numbers() {
            match state.next_in_chain(task) {
                Some(owner) => task = owner,
                None => return true,
            }
        }
        false
    })
}

/// Rule 4.13.
fn idle_exactly_when_served_sleeps(state: &State, served: &Served) -> bool {
    state.server_numbers().all(|server| {
        let task = served.by(server);
        let sleeps = state.has_task(task) && state[task].mode == Mode::Suspended;
        match state[server].phase {
            Phase::Recharging => true,
            Phase::Idle => sleeps,
            Phase::Active | Phase::Running => !sleeps,
        }
    })
}

/// Rule 4.14.
fn executes_only_where_served(state: &State, served: &Served) -> bool {
    state.task_numbers().all(|task| match state[task].runs {
        None => true,
        Some(server) => {
            state.has_server(server)
                && state[server].phase == Phase::Running
                && served.by(server) == task
        }
    })
}

/// Rule 4.15: the record of where a task executes holds one server at most, so it is left to ask
/// that it holds one.
fn served_by_running_executes(state: &State, served: &Served) -> bool {
    state.server_numbers().all(|server| {
        let task = served.by(server);
        state[server].phase != Phase::Running
            || (state.has_task(task) && state[task].runs.is_some())
    })
}

fn accounts_within_clock(state: &State) -> bool {
    let servers = state.server_numbers().all(|server| {
        let server = &state[server];
        server.own.max(server.lent).max(server.spin) <= state.clock
    });
    let mut tasks = state.task_numbers();
    servers && tasks.all(|task| state[task].executed <= state.clock)
}

fn server_totals_within_clock(state: &State) -> bool {
    state.server_numbers().all(|server| {
        let Server {
            own, lent, spin, ..
        } = state[server];
        u64::from(own) + u64::from(lent) + u64::from(spin) <= u64::from(state.clock)
    })
}
