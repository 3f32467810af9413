//! The interference bound from a table of critical sections, after Fig. 5 of document 004, with the
//! count of weighings (rules 12.1 to 12.9).
//!
//! Assumes nothing of the table: what is out of range is refused with 40 to 46. Line 27 of Fig. 5
//! is followed with Held in place of the set on entry (rule 12.7).

use crate::refusal::{require, Refusal};
use crate::state::{ResourceNumber, TaskNumber, RESOURCE_LIMIT, TICK_LIMIT};

pub const BOUND_TASK_LIMIT: u16 = 6;
pub const SECTION_LIMIT: usize = 12;
pub const LENGTH_LIMIT: u32 = TICK_LIMIT;
pub const ALLOWANCE_LIMIT: u32 = 1_000_000;

/// One critical section. Its length includes what is nested in it.
#[derive(Clone, Copy, Debug, PartialEq, Eq)]
pub struct Section {
    pub task: TaskNumber,
    pub resource: ResourceNumber,
    pub length: u32,
    /// The number of the section that it is directly nested in.
    pub parent: Option<u16>,
}

#[derive(Clone, Debug, Default, PartialEq, Eq)]
pub struct SectionTable {
    pub tasks: u16,
    pub sections: Vec<Section>,
}

#[derive(Clone, Copy, Debug, PartialEq, Eq)]
pub struct Bound {
    pub ticks: u64,
    pub weighings: u32,
}

/// The bound of one task and the weighings spent on it, or refusals 40 to 46 in rising order.
pub fn bound(table: &SectionTable, task: TaskNumber, allowance: u32) -> Result<Bound, Refusal> {
    table.check()?;
    require(task.0 < table.tasks, Refusal::NoSuchTaskInTable)?;
    let allowance_in_range = (1..=ALLOWANCE_LIMIT).contains(&allowance);
    require(allowance_in_range, Refusal::AllowanceOutOfRange)?;
    let mut search = Search::new(&table.sections, allowance);
    let outermost = search.outermost_of(task);
    let ticks = search.interference(outermost, Set::one(task.0), Set::EMPTY)?;
    Ok(Bound {
        ticks,
        weighings: search.weighings,
    })
}

impl SectionTable {
    /// Refusals 40 to 43, in the order of rule 12.9.
    pub fn check(&self) -> Result<(), Refusal> {
        let tasks_in_range = (1..=BOUND_TASK_LIMIT).contains(&self.tasks);
        let sections_in_range = self.sections.len() <= SECTION_LIMIT;
        require(
            tasks_in_range && sections_in_range,
            Refusal::SectionCountsOutOfRange,
        )?;
        for (number, section) in self.sections.iter().enumerate() {
            self.check_section(number, section)?;
        }
        (0..self.sections.len()).try_for_each(|number| self.check_children(number))
    }

    fn check_section(&self, number: usize, section: &Section) -> Result<(), Refusal> {
        let in_range = section.task.0 < self.tasks
            && section.resource.index() < RESOURCE_LIMIT
            && (1..=LENGTH_LIMIT).contains(&section.length);
        require(in_range, Refusal::SectionOutOfRange)?;
        let Some(parent) = section.parent else {
            return Ok(());
        };
        let earlier = usize::from(parent) < number;
        require(earlier, Refusal::SectionOutOfRange)?;
        let parent = &self.sections[usize::from(parent)];
        let same_task = parent.task == section.task;
        require(same_task, Refusal::SectionOutOfRange)?;
        let rises = section.resource > parent.resource;
        require(rises, Refusal::ResourceNotAboveParent)
    }

    /// Rule 12.2: those directly nested in it are together no longer.
    fn check_children(&self, number: usize) -> Result<(), Refusal> {
        let total: u64 = self
            .sections
            .iter()
            .filter(|section| section.parent.map(usize::from) == Some(number))
            .map(|section| u64::from(section.length))
            .sum();
        let fits = total <= u64::from(self.sections[number].length);
        require(fits, Refusal::ChildrenTooLong)
    }
}

/// A set of numbers below 16: tasks, resources or sections.
#[derive(Clone, Copy, Debug, PartialEq, Eq)]
struct Set(u16);

impl Set {
    const EMPTY: Set = Set(0);

    fn one(number: u16) -> Set {
        Set(1 << number)
    }

    fn with(self, other: Set) -> Set {
        Set(self.0 | other.0)
    }

    fn without(self, other: Set) -> Set {
        Set(self.0 & !other.0)
    }

    fn meets(self, other: Set) -> bool {
        self.0 & other.0 != 0
    }

    /// The members in rising order.
    fn members(self) -> impl Iterator<Item = u16> {
        let mut left = self.0;
        std::iter::from_fn(move || {
            let lowest = (left != 0).then(|| left.trailing_zeros() as u16)?;
            left &= left - 1;
            Some(lowest)
        })
    }
}

/// The calculation on a table in range, with the sets that it asks for again and again.
struct Search<'a> {
    sections: &'a [Section],
    /// By section, the resources of its ancestors.
    outer: [Set; SECTION_LIMIT],
    /// By section, the sections directly nested in it.
    children: [Set; SECTION_LIMIT],
    /// By resource, the tasks that have a section on it.
    users: [Set; RESOURCE_LIMIT],
    allowance: u32,
    weighings: u32,
}

/// The most a task gives at its place in an order, and Held after it.
struct Weighed {
    ticks: u64,
    held: Set,
}

impl<'a> Search<'a> {
    fn new(sections: &'a [Section], allowance: u32) -> Search<'a> {
        let mut outer = [Set::EMPTY; SECTION_LIMIT];
        let mut children = [Set::EMPTY; SECTION_LIMIT];
        let mut users = [Set::EMPTY; RESOURCE_LIMIT];
        for (number, section) in sections.iter().enumerate() {
            let user = &mut users[section.resource.index()];
            *user = user.with(Set::one(section.task.0));
            if let Some(parent) = section.parent.map(usize::from) {
                let parent_resource = Set::one(sections[parent].resource.0);
                outer[number] = outer[parent].with(parent_resource);
                children[parent] = children[parent].with(Set::one(number as u16));
            }
        }
        Search {
            sections,
            outer,
            children,
            users,
            allowance,
            weighings: 0,
        }
    }

    fn sections_where(&self, wanted: impl Fn(&Section) -> bool) -> Set {
        let numbered = (0u16..).zip(self.sections);
        numbered
            .filter(|(_, section)| wanted(section))
            .fold(Set::EMPTY, |set, (number, _)| set.with(Set::one(number)))
    }

    fn outermost_of(&self, task: TaskNumber) -> Set {
        self.sections_where(|section| section.task == task && section.parent.is_none())
    }

    /// The interference of some sections of one task (rule 12.4).
    fn interference(
        &mut self,
        sections: Set,
        blocking: Set,
        resources: Set,
    ) -> Result<u64, Refusal> {
        let mut sum = 0;
        for number in sections.members() {
            let section = self.sections[usize::from(number)];
            let held = resources.with(Set::one(section.resource.0));
            let left = self.users[section.resource.index()].without(blocking);
            sum += self.ordering_value(section.resource, left, blocking, held)?;
            let children = self.children[usize::from(number)];
            sum += self.interference(children, blocking, held)?;
        }
        Ok(sum)
    }

    /// The largest sum over all orders of the tasks left: each is tried next, with all orders of
    /// the rest after it. B stays as it is along an order (rules 12.5, 12.7).
    fn ordering_value(
        &mut self,
        resource: ResourceNumber,
        left: Set,
        blocking: Set,
        held: Set,
    ) -> Result<u64, Refusal> {
        let mut greatest = 0;
        for task in left.members().map(TaskNumber) {
            let first = self.weigh(task, resource, blocking, held)?;
            let rest = left.without(Set::one(task.0));
            let after = self.ordering_value(resource, rest, blocking, first.held)?;
            greatest = greatest.max(first.ticks + after);
        }
        Ok(greatest)
    }

    /// What a task gives at its place in an order, and Held after it (rule 12.5).
    fn weigh(
        &mut self,
        task: TaskNumber,
        resource: ResourceNumber,
        blocking: Set,
        held: Set,
    ) -> Result<Weighed, Refusal> {
        let mut best = Weighed { ticks: 0, held };
        let weighed =
            self.sections_where(|section| section.task == task && section.resource == resource);
        for number in weighed.members().map(usize::from) {
            self.count_weighing()?;
            let outer = self.outer[number];
            if outer.meets(held) {
                continue;
            }
            let joined = held.with(outer);
            let within = blocking.with(Set::one(task.0));
            let nested = self.interference(self.children[number], within, joined)?;
            let ticks = u64::from(self.sections[number].length) + nested;
            if ticks > best.ticks {
                best = Weighed {
                    ticks,
                    held: joined,
                };
            }
        }
        Ok(best)
    }

    /// Counts a section, whatever it gives (rule 12.8). The count only grows, so the search may end
    /// as soon as the allowance is exceeded.
    fn count_weighing(&mut self) -> Result<(), Refusal> {
        self.weighings += 1;
        require(self.weighings <= self.allowance, Refusal::AllowanceExceeded)
    }
}
