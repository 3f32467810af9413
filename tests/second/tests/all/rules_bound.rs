//! The rules on the interference bound where they could be read otherwise.
//!
//! Assumes nothing.

use super::bench::*;
use second::bound::{bound, Bound, SectionTable};
use second::refusal::Refusal;

const MOST: u32 = 1_000_000;

fn refusal_of(table: &SectionTable) -> Option<u16> {
    let answer = bound(table, task(0), MOST);
    answer.err().map(Refusal::number)
}

fn bound_of(table: &SectionTable, number: u16) -> (u64, u32) {
    let Ok(Bound { ticks, weighings }) = bound(table, task(number), MOST) else {
        panic!("refused");
    };
    (ticks, weighings)
}

/// Rule 12.8.
#[test]
fn weighings_of_nested_calculations_count_each_time() {
    // Three tasks on one resource around task 0: an order's tree weighs 3 + 3*2 + 3*2*1 sections.
    let sections = [
        (0, 0, 1, None),
        (1, 0, 1, None),
        (2, 0, 1, None),
        (3, 0, 1, None),
    ];
    assert_eq!(bound_of(&section_table(4, &sections), 0), (3, 15));
}

/// Rule 12.5.
#[test]
fn only_tasks_with_a_section_on_that_very_resource_block() {
    // Task 2 blocks task 1 inside its section, and so task 0 through it, but not directly.
    let table = section_table(
        3,
        &[
            (0, 0, 1, None),
            (1, 0, 10, None),
            (1, 1, 4, Some(1)),
            (2, 1, 7, None),
        ],
    );
    assert_eq!(bound_of(&table, 0), (17, 2));
}

/// Tasks 1 and 2 block task 0 on resource 2. Task 1 has two sections there of one worth, 5: one of
/// length 5 inside resource 0, one of length 3 inside resource 1, with one on resource 3 inside it
/// on which task 3 blocks for 2 from within resource 0. Task 2's section is inside resource 0.
fn two_sections_of_one_worth(inside_zero_first: bool) -> SectionTable {
    let mut sections = vec![(0, 2, 1, None)];
    let inside_zero = |first: u16| [(1, 0, 9, None), (1, 2, 5, Some(first))];
    let inside_one = |first: u16| {
        [
            (1, 1, 9, None),
            (1, 2, 3, Some(first)),
            (1, 3, 1, Some(first + 1)),
        ]
    };
    if inside_zero_first {
        sections.extend(inside_zero(1));
        sections.extend(inside_one(3));
    } else {
        sections.extend(inside_one(1));
        sections.extend(inside_zero(4));
    }
    sections.extend([(2, 0, 9, None), (2, 2, 4, Some(6))]);
    sections.extend([(3, 0, 9, None), (3, 3, 2, Some(8))]);
    section_table(4, &sections)
}

/// Rule 12.5.
#[test]
fn first_greatest_decides_what_is_held() {
    // The section inside 0 counts, so task 2 gives nothing after it; the order 2, 1 gives 4 + 3.
    let inside_zero = two_sections_of_one_worth(true);
    assert_eq!(bound_of(&inside_zero, 0), (7, 8));
    // The section inside 1 counts, and task 2 after it: 5 + 4.
    let inside_one = two_sections_of_one_worth(false);
    assert_eq!(bound_of(&inside_one, 0), (9, 8));
}

/// Rule 12.9.
#[test]
fn order_of_the_table_tests() {
    assert_eq!(refusal_of(&section_table(0, &[])), Some(40));
    assert_eq!(refusal_of(&section_table(7, &[])), Some(40));
    assert_eq!(
        refusal_of(&section_table(1, &[(0, 0, 1, None); 13])),
        Some(40)
    );
    assert_eq!(refusal_of(&section_table(1, &[(0, 0, 1, None); 12])), None);
    let bad_fields = [
        (1, 0, 1, None),
        (0, 16, 1, None),
        (0, 0, 0, None),
        (0, 0, MOST + 1, None),
        (0, 0, 1, Some(0)),
    ];
    for section in bad_fields {
        assert_eq!(refusal_of(&section_table(1, &[section])), Some(41));
    }
    let another_task = [(0, 0, 5, None), (1, 1, 5, Some(0))];
    assert_eq!(refusal_of(&section_table(2, &another_task)), Some(41));
    let same_resource = [(0, 3, 5, None), (0, 3, 5, Some(0)), (0, 3, 0, None)];
    assert_eq!(refusal_of(&section_table(1, &same_resource)), Some(42));
    let long_child_then_bad = [(0, 0, 5, None), (0, 1, 6, Some(0)), (0, 0, 0, None)];
    assert_eq!(
        refusal_of(&section_table(1, &long_child_then_bad)),
        Some(41)
    );
    let long_children = [(0, 0, 5, None), (0, 1, 3, Some(0)), (0, 1, 3, Some(0))];
    assert_eq!(refusal_of(&section_table(1, &long_children)), Some(43));
}

/// Rule 12.9.
#[test]
fn table_faults_are_told_before_task_and_allowance() {
    let too_long = section_table(1, &[(0, 0, 5, None), (0, 1, 6, Some(0))]);
    assert_eq!(bound(&too_long, task(9), 0), Err(Refusal::ChildrenTooLong));
    let good = section_table(1, &[]);
    assert_eq!(bound(&good, task(1), 0), Err(Refusal::NoSuchTaskInTable));
    let out_of_range = Err(Refusal::AllowanceOutOfRange);
    assert_eq!(bound(&good, task(0), 0), out_of_range);
    assert_eq!(bound(&good, task(0), MOST + 1), out_of_range);
}

/// Rule 12.9.
#[test]
fn allowance_is_compared_with_the_whole_tree() {
    let table = section_table(2, &[(0, 0, 1, None), (1, 0, 6, None), (1, 0, 5, None)]);
    assert_eq!(bound_of(&table, 0), (6, 2));
    assert_eq!(
        bound(&table, task(0), 2).map(|bound| bound.weighings),
        Ok(2)
    );
    assert_eq!(bound(&table, task(0), 1), Err(Refusal::AllowanceExceeded));
    let nothing = section_table(2, &[]);
    assert_eq!(bound(&nothing, task(1), 1).map(|bound| bound.ticks), Ok(0));
    assert_eq!(
        bound(&nothing, task(1), 0),
        Err(Refusal::AllowanceOutOfRange)
    );
}

/// Rule 12.5.
#[test]
fn nested_calculation_gets_held_as_it_stands() {
    // Task 1's section on 0 has one on 2 inside it; task 2's section on 2 is inside 1; task 3's
    // section on 0 comes with nothing. Whether task 2 can block task 1 there is told by Held.
    let sections = [
        (0, 0, 1, None),
        (1, 0, 10, None),
        (1, 2, 4, Some(1)),
        (2, 1, 8, None),
        (2, 2, 5, Some(3)),
    ];
    assert_eq!(bound_of(&section_table(3, &sections), 0), (15, 2));
    // With task 0's section inside one on resource 1, that resource is in Held already.
    let within_one = [
        (0, 1, 3, None),
        (0, 3, 1, Some(0)),
        (1, 3, 10, None),
        (1, 4, 4, Some(2)),
        (2, 1, 8, None),
        (2, 4, 5, Some(4)),
    ];
    assert_eq!(bound_of(&section_table(3, &within_one), 0), (22, 4));
}
