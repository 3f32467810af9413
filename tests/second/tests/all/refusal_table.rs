//! The table of `docs/REFUSALS.md` has the rules' numbers, each once, in order, and says for each
//! what it is called, when it comes and what to do.
//!
//! Assumes that `refusal.rs` has a line `Name = number,` for each refusal, in ascending order.

const TABLE: &str = include_str!("../../../../docs/REFUSALS.md");
const REFUSALS: &str = include_str!("../../src/refusal.rs");

fn cells() -> Vec<Vec<&'static str>> {
    let lines = TABLE.lines().filter(|line| line.starts_with("| "));
    let cut = |line: &'static str| line.trim_matches('|').split('|').map(str::trim).collect();
    lines.skip(1).map(cut).collect()
}

/// Each number with its name.
pub fn rows() -> Vec<(u16, &'static str)> {
    let number = |cell: &str| cell.parse().expect("the first cell is a number");
    cells().iter().map(|row| (number(row[0]), row[1])).collect()
}

#[test]
fn the_table_has_the_rules_numbers() {
    let values = REFUSALS.lines().filter_map(|line| line.split_once(" = "));
    let numbers: Vec<u16> = values
        .filter_map(|(_, value)| value.strip_suffix(',')?.parse().ok())
        .collect();
    let told: Vec<u16> = rows().iter().map(|&(number, _)| number).collect();
    assert_eq!(told, numbers);
    assert_eq!(told.len(), 35);
}

#[test]
fn every_row_is_whole() {
    let mut names: Vec<&str> = rows().iter().map(|&(_, name)| name).collect();
    for row in cells() {
        assert_eq!(row.len(), 4, "{row:?}");
        assert!(row.iter().all(|cell| !cell.is_empty()), "{row:?}");
    }
    let count = names.len();
    names.sort_unstable();
    names.dedup();
    assert_eq!(names.len(), count, "two rows have one name");
}
