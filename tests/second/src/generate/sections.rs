//! Tables of critical sections and questions about them: good ones, and ones for every refusal
//! from 40 to 46.
//!
//! Assumes nothing.

use super::random::Random;
use crate::bound::{
    bound, Section, SectionTable, ALLOWANCE_LIMIT, BOUND_TASK_LIMIT, LENGTH_LIMIT, SECTION_LIMIT,
};
use crate::refusal::Refusal;
use crate::state::{ResourceNumber, TaskNumber, RESOURCE_LIMIT};

/// Numbers past any count, for a table of bytes too, where 255 is no parent (docs/STATE.md).
const LARGEST_STRAY_NUMBER: u16 = 254;
/// Far more than it ever took to find a question with one fault.
const ATTEMPTS: u32 = 100_000;

#[derive(Clone, Debug, PartialEq, Eq)]
pub struct Question {
    pub table: SectionTable,
    pub task: TaskNumber,
    pub allowance: u32,
}

impl Question {
    pub fn answer(&self) -> Result<crate::bound::Bound, Refusal> {
        bound(&self.table, self.task, self.allowance)
    }
}

/// A question that is not refused, unless its tree is larger than any allowance.
pub fn good_question(random: &mut Random) -> Question {
    let table = good_table(random);
    let task = TaskNumber(random.number(0, table.tasks - 1));
    Question {
        table,
        task,
        allowance: ALLOWANCE_LIMIT,
    }
}

/// The same question with an allowance of just what it spends, one more, and one less where that
/// is in range.
pub fn tight_questions(question: &Question) -> Vec<Question> {
    let Ok(bound) = question.answer() else {
        return Vec::new();
    };
    let around = bound.weighings.saturating_sub(1)..=bound.weighings + 1;
    let in_range = around.filter(|allowance| (1..=ALLOWANCE_LIMIT).contains(allowance));
    in_range
        .map(|allowance| Question {
            allowance,
            ..question.clone()
        })
        .collect()
}

fn good_table(random: &mut Random) -> SectionTable {
    if random.one_in(6) {
        return tied_table(random);
    }
    if random.one_in(30) {
        return dense_table(random);
    }
    let tasks = random.number(1, BOUND_TASK_LIMIT);
    let count = random.index(SECTION_LIMIT + 1);
    // Few resources make the tasks meet.
    let resources = random.number(1, RESOURCE_LIMIT as u16);
    let last_resource = resources.min(random.number(2, 6)) - 1;
    let mut table = SectionTable {
        tasks,
        sections: Vec::new(),
    };
    while table.sections.len() < count {
        let task = TaskNumber(random.number(0, tasks - 1));
        let section = nested_section(random, &table, task, last_resource)
            .unwrap_or_else(|| outermost_section(random, task, last_resource));
        table.sections.push(section);
    }
    table
}

/// Two sections of one task on resource 2 that mostly tie, under different outer resources: one
/// alone, inside resource 0; the other inside 1, with a section in it on which a third task blocks
/// from within 0, or from within 1, where it can't. Another task's section inside 0 can follow only
/// one of them, so that which of the two counts shows in the bound; random sections hardly ever do
/// that.
fn tied_table(random: &mut Random) -> SectionTable {
    let outer_length = 9;
    let mut numbers: Vec<u16> = (0..BOUND_TASK_LIMIT).collect();
    random.shuffle(&mut numbers);
    let [blocked, tied, follower, nested] = [0, 1, 2, 3].map(|place| TaskNumber(numbers[place]));
    let [short, gap, following] = [5, 3, 6].map(|most| random.between(1, most));
    let long = short + gap - u32::from(random.one_in(4));
    let within = random.number(0, 1);
    let inside_zero = [(tied, 0, outer_length), (tied, 2, long)];
    let inside_one = [(tied, 1, outer_length), (tied, 2, short), (tied, 3, 1)];
    let mut nests: Vec<&[(TaskNumber, u16, u32)]> = vec![&inside_zero, &inside_one];
    let others = [
        [(follower, 0, outer_length), (follower, 2, following)],
        [(nested, within, outer_length), (nested, 3, gap)],
    ];
    let alone = [(blocked, 2, 1)];
    nests.extend(others.iter().map(|nest| &nest[..]));
    nests.push(&alone);
    random.shuffle(&mut nests);
    SectionTable {
        tasks: BOUND_TASK_LIMIT,
        sections: nested_in_turn(&nests),
    }
}

/// Each task with sections on the same two resources, mostly one inside the other: these have the
/// largest trees.
fn dense_table(random: &mut Random) -> SectionTable {
    let mut sections: Vec<Section> = Vec::new();
    for task in (0..BOUND_TASK_LIMIT).map(TaskNumber) {
        let nested = !random.one_in(6);
        let parent = nested.then_some(sections.len() as u16);
        let outside = Section {
            length: random.between(2, 9),
            ..outermost_section(random, task, 0)
        };
        sections.push(outside);
        sections.push(Section {
            resource: ResourceNumber(1),
            length: random.between(1, outside.length),
            parent,
            ..outside
        });
    }
    SectionTable {
        tasks: BOUND_TASK_LIMIT,
        sections,
    }
}

/// Sections of which each is nested in the one before it, nest by nest.
fn nested_in_turn(nests: &[&[(TaskNumber, u16, u32)]]) -> Vec<Section> {
    let mut sections: Vec<Section> = Vec::new();
    for nest in nests {
        for (depth, &(task, resource, length)) in nest.iter().enumerate() {
            sections.push(Section {
                task,
                resource: ResourceNumber(resource),
                length,
                parent: (depth > 0).then(|| sections.len() as u16 - 1),
            });
        }
    }
    sections
}

fn outermost_section(random: &mut Random, task: TaskNumber, last_resource: u16) -> Section {
    // Short sections tie, so that the first greatest matters.
    let longest = match random.index(8) {
        0 => LENGTH_LIMIT,
        1..=4 => 5,
        _ => 20,
    };
    Section {
        task,
        resource: ResourceNumber(random.number(0, last_resource)),
        length: random.between(1, longest),
        parent: None,
    }
}

/// A section inside one of the task's, where there is one with room.
fn nested_section(
    random: &mut Random,
    table: &SectionTable,
    task: TaskNumber,
    last_resource: u16,
) -> Option<Section> {
    if random.one_in(3) {
        return None;
    }
    let parents: Vec<u16> = (0u16..)
        .zip(&table.sections)
        .filter(|(_, section)| section.task == task && section.resource.0 < last_resource)
        .map(|(number, _)| number)
        .collect();
    let parent = random.pick(&parents)?;
    let outside = table.sections[usize::from(parent)];
    let inside = table.sections.iter();
    let taken: u32 = inside
        .filter(|section| section.parent == Some(parent))
        .map(|section| section.length)
        .sum();
    if outside.length == taken {
        return None;
    }
    Some(Section {
        task,
        resource: ResourceNumber(random.number(outside.resource.0 + 1, last_resource)),
        length: random.between(1, outside.length - taken),
        parent: Some(parent),
    })
}

/// A question that is refused with this number, from 40 to 45.
pub fn bad_question(random: &mut Random, refusal: Refusal) -> Question {
    for _ in 0..ATTEMPTS {
        let mut question = good_question(random);
        spoil(random, &mut question, refusal);
        if question.answer() == Err(refusal) {
            return question;
        }
    }
    panic!("no question found that is refused for {refusal:?}");
}

fn spoil(random: &mut Random, question: &mut Question, refusal: Refusal) {
    let table = &mut question.table;
    match refusal {
        Refusal::SectionCountsOutOfRange => spoil_counts(random, table),
        Refusal::NoSuchTaskInTable => {
            question.task = TaskNumber(random.number(table.tasks, LARGEST_STRAY_NUMBER))
        }
        Refusal::AllowanceOutOfRange => {
            question.allowance = match random.index(3) {
                0 => 0,
                1 => ALLOWANCE_LIMIT + 1,
                _ => u32::MAX,
            }
        }
        _ => spoil_section(random, table, refusal),
    }
}

fn spoil_counts(random: &mut Random, table: &mut SectionTable) {
    match random.index(3) {
        0 => table.tasks = 0,
        1 => table.tasks = random.number(BOUND_TASK_LIMIT + 1, LARGEST_STRAY_NUMBER),
        _ => {
            let extra = outermost_section(random, TaskNumber(0), 0);
            table.sections.resize(SECTION_LIMIT + 1, extra);
        }
    }
}

fn spoil_section(random: &mut Random, table: &mut SectionTable, refusal: Refusal) {
    if table.sections.is_empty() {
        return;
    }
    let number = random.index(table.sections.len());
    let parent = table.sections[number].parent;
    let parent_resource = parent.map(|parent| table.sections[usize::from(parent)].resource);
    let section = &mut table.sections[number];
    match refusal {
        Refusal::ResourceNotAboveParent => {
            if let Some(ResourceNumber(highest)) = parent_resource {
                section.resource = ResourceNumber(random.number(0, highest));
            }
        }
        Refusal::ChildrenTooLong => section.length = random.between(1, section.length),
        _ => spoil_field(random, section, table.tasks, number as u16),
    }
}

/// Puts one field of the section with this number out of range; a parent may turn out good.
fn spoil_field(random: &mut Random, section: &mut Section, tasks: u16, number: u16) {
    let mut stray = |low: u16| random.number(low, LARGEST_STRAY_NUMBER);
    let [task, resource, parent] = [tasks, RESOURCE_LIMIT as u16, number].map(&mut stray);
    match random.index(6) {
        0 => section.task = TaskNumber(task),
        1 => section.resource = ResourceNumber(resource),
        2 => section.length = 0,
        3 => section.length = random.between(LENGTH_LIMIT + 1, u32::MAX),
        4 => section.parent = Some(parent),
        _ => section.parent = Some(random.number(0, number)),
    }
}
