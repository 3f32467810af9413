//! Tables to start a fresh state from, good ones and ones that `fresh` refuses.
//!
//! Assumes nothing.

use super::random::Random;
use crate::refusal::Refusal;
use crate::state::{
    Counts, Reservation, Table, PROCESSOR_LIMIT, RESOURCE_LIMIT, TASK_LIMIT, TICK_LIMIT,
};

/// How large the budgets of a table are.
#[derive(Clone, Copy, Debug, PartialEq, Eq)]
pub enum Pace {
    /// Budgets of a few ticks, which run out inside locks.
    Brief,
    /// One small budget for all, so that servers reach 0 together and tie.
    Even,
    /// Budgets that last for a while.
    Roomy,
    /// Anything that is allowed.
    Wide,
}

impl Pace {
    const ALL: [Pace; 4] = [Pace::Brief, Pace::Even, Pace::Roomy, Pace::Wide];

    pub fn any(random: &mut Random) -> Pace {
        Pace::ALL[random.index(Pace::ALL.len())]
    }

    fn largest_quota(self) -> u32 {
        match self {
            Pace::Brief => 6,
            Pace::Even => 8,
            Pace::Roomy => 500,
            Pace::Wide => TICK_LIMIT,
        }
    }
}

pub fn any_counts(random: &mut Random) -> Counts {
    Counts {
        processors: random.number(1, PROCESSOR_LIMIT as u16),
        tasks: random.number(1, TASK_LIMIT as u16),
        resources: random.number(0, RESOURCE_LIMIT as u16),
    }
}

/// A good table. With `open` every task declares every resource.
pub fn good_table(random: &mut Random, counts: Counts, pace: Pace, open: bool) -> Table {
    let largest = pace.largest_quota();
    let shared_quota = random.between(1, largest);
    let every_resource = ((1u32 << counts.resources) - 1) as u16;
    let mut table = Table {
        counts,
        ..Table::default()
    };
    for row in table.rows.iter_mut().take(usize::from(counts.tasks)) {
        row.quota = match pace {
            Pace::Even => shared_quota,
            _ => random.between(1, largest),
        };
        let longest = row.quota.saturating_mul(4).min(TICK_LIMIT);
        row.period = match random.index(16) {
            0 => row.quota,
            1 if pace == Pace::Wide => TICK_LIMIT,
            _ => random.between(row.quota, longest),
        };
        row.declared = every_resource;
        if !open {
            row.declared &= random.draw() as u16 | random.draw() as u16;
        }
    }
    table
}

/// A table that `fresh` refuses with this number: 19, 20 or 21.
pub fn bad_table(random: &mut Random, refusal: Refusal) -> Table {
    let mut counts = any_counts(random);
    counts.resources = counts.resources.min(RESOURCE_LIMIT as u16 - 1);
    let mut table = good_table(random, counts, Pace::Wide, false);
    let row = random.index(usize::from(counts.tasks));
    match refusal {
        Refusal::CountsOutOfRange => table.counts = bad_counts(random, counts),
        Refusal::QuotaOrPeriodOutOfRange => table.rows[row] = bad_reservation(random),
        _ => table.rows[row].declared |= absent_bit(random, counts.resources),
    }
    table
}

pub fn bad_counts(random: &mut Random, good: Counts) -> Counts {
    let mut counts = good;
    match random.index(5) {
        0 => counts.processors = 0,
        1 => counts.processors = random.number(PROCESSOR_LIMIT as u16 + 1, u16::MAX),
        2 => counts.tasks = 0,
        3 => counts.tasks = random.number(TASK_LIMIT as u16 + 1, u16::MAX),
        _ => counts.resources = random.number(RESOURCE_LIMIT as u16 + 1, u16::MAX),
    }
    counts
}

pub fn bad_reservation(random: &mut Random) -> Reservation {
    let (quota, period) = match random.index(4) {
        0 => (0, random.between(0, TICK_LIMIT)),
        1 => (2, 1),
        2 => (random.between(1, TICK_LIMIT), TICK_LIMIT + 1),
        _ => (u32::MAX, u32::MAX),
    };
    Reservation {
        quota,
        period,
        declared: 0,
    }
}

/// A declared bit at or above the resource count, which is below 16.
pub fn absent_bit(random: &mut Random, resources: u16) -> u16 {
    1 << random.number(resources, RESOURCE_LIMIT as u16 - 1)
}
