//! Fig. 5 of document 004, written out with its permutations, beside the bound of this program,
//! which chooses an order task by task.
//!
//! Assumes a table in range. It is followed as rule 12.7 has it, with line 27 as printed, or with
//! the last greatest section instead of the first; the generated tables tell these apart.

use super::bench::*;
use second::bound::{bound, SectionTable};
use second::generate::random::Random;
use second::generate::sections::good_question;
use second::state::{ResourceNumber, TaskNumber};
use std::collections::BTreeSet;

type Resources = BTreeSet<ResourceNumber>;
type Tasks = BTreeSet<TaskNumber>;

#[derive(Clone, Copy, PartialEq, Eq)]
enum Variant {
    /// Line 27 tests Held, and the first greatest section counts.
    DocumentOne,
    PrintedLine,
    LastGreatest,
}

struct FigureFive<'a> {
    table: &'a SectionTable,
    variant: Variant,
}

impl FigureFive<'_> {
    fn interference(&self, task: TaskNumber) -> u64 {
        let outermost = self.numbers(|number| {
            let section = self.table.sections[number];
            section.task == task && section.parent.is_none()
        });
        self.compute_interference(&outermost, &Tasks::from([task]), &Resources::new())
    }

    fn numbers(&self, wanted: impl Fn(usize) -> bool) -> Vec<usize> {
        let all = 0..self.table.sections.len();
        all.filter(|&number| wanted(number)).collect()
    }

    fn inner(&self, number: usize) -> Vec<usize> {
        let parent = |inner: usize| self.table.sections[inner].parent.map(usize::from);
        self.numbers(|inner| parent(inner) == Some(number))
    }

    fn outer_resources(&self, number: usize) -> Resources {
        match self.table.sections[number].parent.map(usize::from) {
            None => Resources::new(),
            Some(parent) => {
                let mut outer = self.outer_resources(parent);
                outer.insert(self.table.sections[parent].resource);
                outer
            }
        }
    }

    fn compute_interference(&self, sections: &[usize], tasks: &Tasks, held: &Resources) -> u64 {
        let mut sum = 0;
        for &number in sections {
            let on = self.table.sections[number].resource;
            let mut local = held.clone();
            local.insert(on);
            let users = self
                .table
                .sections
                .iter()
                .filter(|user| user.resource == on);
            let blocking: Tasks = users.map(|user| user.task).collect();
            let left: Vec<TaskNumber> = blocking.difference(tasks).copied().collect();
            let partial = permutations(&left)
                .iter()
                .map(|order| self.compute_permutation(order, on, tasks, &local))
                .max();
            sum += partial.unwrap_or_default();
            sum += self.compute_interference(&self.inner(number), tasks, &local);
        }
        sum
    }

    fn compute_permutation(
        &self,
        order: &[TaskNumber],
        on: ResourceNumber,
        tasks: &Tasks,
        entry: &Resources,
    ) -> u64 {
        let mut sum = 0;
        let mut local = entry.clone();
        for &next in order {
            let mut local_tasks = tasks.clone();
            local_tasks.insert(next);
            let weighed = self.numbers(|number| {
                let section = self.table.sections[number];
                section.task == next && section.resource == on
            });
            let (greatest, held) = self.greatest(&weighed, &local_tasks, entry, &local);
            sum += greatest;
            local = held;
        }
        sum
    }

    /// Lines 24 to 35: the greatest of one task's sections, and the resources held after it.
    fn greatest(
        &self,
        weighed: &[usize],
        local_tasks: &Tasks,
        entry: &Resources,
        local: &Resources,
    ) -> (u64, Resources) {
        let mut greatest = (0, local.clone());
        for &number in weighed {
            let outer = self.outer_resources(number);
            let tested = match self.variant {
                Variant::PrintedLine => entry,
                Variant::DocumentOne | Variant::LastGreatest => local,
            };
            if outer.is_disjoint(tested) {
                let joined: Resources = local.union(&outer).copied().collect();
                let inner = self.inner(number);
                let length = u64::from(self.table.sections[number].length)
                    + self.compute_interference(&inner, local_tasks, &joined);
                let equal_counts = self.variant == Variant::LastGreatest;
                if greatest.0 < length || equal_counts && greatest.0 == length {
                    greatest = (length, joined);
                }
            }
        }
        greatest
    }
}

fn permutations(items: &[TaskNumber]) -> Vec<Vec<TaskNumber>> {
    if items.is_empty() {
        return vec![Vec::new()];
    }
    let mut all = Vec::new();
    for (place, &first) in items.iter().enumerate() {
        let mut rest = items.to_vec();
        rest.remove(place);
        for mut order in permutations(&rest) {
            order.insert(0, first);
            all.push(order);
        }
    }
    all
}

/// Line 27 with the set on entry, as the figure prints it, gives task 0 a bound of 7 (rule 12.7).
#[test]
fn line_twenty_seven_as_printed_gives_seven() {
    let table = section_table(
        3,
        &[
            (0, 1, 5, None),
            (1, 0, 9, None),
            (1, 1, 4, Some(1)),
            (2, 0, 8, None),
            (2, 1, 3, Some(3)),
        ],
    );
    let figure = |variant| FigureFive {
        table: &table,
        variant,
    };
    assert_eq!(figure(Variant::PrintedLine).interference(task(0)), 7);
    assert_eq!(figure(Variant::DocumentOne).interference(task(0)), 4);
}

#[test]
fn bound_equals_the_figure_with_its_permutations() {
    const TABLES: u64 = 3_000;
    const SMALL_TREE: u32 = 3_000;
    let mut random = Random::new(5);
    let mut compared = 0;
    let mut told_apart = [(Variant::PrintedLine, 0), (Variant::LastGreatest, 0)];
    for _ in 0..TABLES {
        let question = good_question(&mut random);
        let Ok(answer) = bound(&question.table, question.task, SMALL_TREE) else {
            continue;
        };
        let figure = |variant| FigureFive {
            table: &question.table,
            variant,
        };
        let by_figure = figure(Variant::DocumentOne).interference(question.task);
        assert_eq!(answer.ticks, by_figure, "{question:?}");
        for (variant, count) in &mut told_apart {
            let other = figure(*variant).interference(question.task);
            *count += u32::from(other != by_figure);
        }
        compared += 1;
    }
    assert!(compared > TABLES / 2);
    assert!(told_apart.iter().all(|&(_, count)| count > 0));
}
