//! What the proved program `bounds` is stored to print, on its own example and on the tables of
//! `examples/bounds`, against this program's own answers; and the run that goes above the bound.
//!
//! Assumes the planners' text form of `docs/BOUNDS.md`, which is read here a second time.

use second::bound::{bound, Section, SectionTable};
use second::refusal::Refusal;
use second::replay::replay;
use second::state::{ResourceNumber, TaskNumber};
use std::fs;
use std::path::{Path, PathBuf};

const MOST: u32 = 1_000_000;

const WARNING: &str = "These figures are the calculation of the paper's Fig. 5, \
                       and not a safe bound on what a server can lose.";

const LOST: &str = "not understood: the number of tasks, \
                    or a section's task, resource, length and parent";

/// A table as a text tells it, up to the first line that is not understood.
#[derive(Default)]
struct Told {
    table: SectionTable,
    tasks_line: Option<usize>,
    section_lines: Vec<usize>,
    lost_at: Option<usize>,
}

impl Told {
    fn read(text: &str) -> Told {
        let mut told = Told::default();
        for (number, line) in (1..).zip(text.split('\n')) {
            let kept = line.split('#').next().unwrap_or_default();
            let words: Vec<&str> = kept
                .split([' ', '\t', '\r'])
                .filter(|word| !word.is_empty())
                .collect();
            if !words.is_empty() && told.take(&words, number).is_none() {
                told.lost_at = Some(number);
                break;
            }
        }
        told
    }

    /// Takes the words of a line, or answers that they are not understood.
    fn take(&mut self, words: &[&str], line: usize) -> Option<()> {
        match (self.tasks_line, words) {
            (None, [tasks]) => {
                self.table.tasks = number_within(tasks, u64::from(u16::MAX))? as u16;
                self.tasks_line = Some(line);
            }
            (Some(_), &[task, resource, length, parent]) => {
                self.table.sections.push(Section {
                    task: TaskNumber(number_within(task, u64::from(u16::MAX))? as u16),
                    resource: ResourceNumber(number_within(resource, u64::from(u16::MAX))? as u16),
                    length: number_within(length, u64::from(u32::MAX))? as u32,
                    parent: match parent {
                        "-" => None,
                        parent => Some(number_within(parent, u64::from(u16::MAX))? as u16),
                    },
                });
                self.section_lines.push(line);
            }
            _ => return None,
        }
        Some(())
    }

    /// The refusal of the whole table, with the line that brings it about, or 0 for none.
    fn refusal(&self) -> Option<(u16, usize)> {
        let refusal = self.table.check().err()?;
        let line = if refusal != Refusal::SectionCountsOutOfRange {
            (1..=self.table.sections.len())
                .find(|&count| self.first_sections(count).check() == Err(refusal))
                .map(|count| self.section_lines[count - 1])
        } else if (1..=6).contains(&self.table.tasks) {
            self.section_lines.get(12).copied()
        } else {
            self.tasks_line
        };
        Some((refusal.number(), line.unwrap_or(0)))
    }

    fn first_sections(&self, count: usize) -> SectionTable {
        SectionTable {
            tasks: self.table.tasks,
            sections: self.table.sections[..count].to_vec(),
        }
    }

    /// What `bounds` prints for this table.
    fn listing(&self, allowance: u32) -> String {
        if let Some(line) = self.lost_at {
            return format!("line {line}: {LOST}\n");
        }
        if let Some((number, line)) = self.refusal() {
            let at = if line == 0 {
                String::new()
            } else {
                format!("line {line}: ")
            };
            return format!("{at}{}\n", refused(number));
        }
        let told = |task| format!("task {task} {}\n", answer(&self.table, task, allowance));
        (0..self.table.tasks).map(told).collect::<String>() + WARNING + "\n"
    }
}

/// A decimal number, or the greatest that there is room for.
fn number_within(word: &str, greatest: u64) -> Option<u64> {
    let digits = word.bytes().all(|byte| byte.is_ascii_digit());
    digits.then(|| word.parse().unwrap_or(greatest).min(greatest))
}

/// The program's argument: a number by itself, or 0; without it a million.
fn allowance(argument: Option<&str>) -> u32 {
    let Some(argument) = argument else {
        return MOST;
    };
    match argument.split_whitespace().collect::<Vec<&str>>()[..] {
        [word] => number_within(word, u64::from(u32::MAX)).unwrap_or(0) as u32,
        _ => 0,
    }
}

/// "refused .." with its meaning.
fn refused(number: u16) -> String {
    let meaning = match number {
        40 => "a table has 1 to 6 tasks and at most 12 sections",
        41 => {
            "task, resource (0 to 15), length (1 to 1000000) \
             or parent (an earlier section of the same task)"
        }
        42 => "its resource is not above its parent's",
        43 => "with it the sections in its parent are longer than that",
        45 => "the allowance is 1 to 1000000",
        46 => "more weighings than the allowance",
        _ => panic!("{number} is told for no table"),
    };
    format!("refused {number}: {meaning}")
}

/// "bound .. weighings .." or "refused ..".
fn answer(table: &SectionTable, task: u16, allowance: u32) -> String {
    match bound(table, TaskNumber(task), allowance) {
        Ok(bound) => format!("bound {} weighings {}", bound.ticks, bound.weighings),
        Err(refusal) => refused(refusal.number()),
    }
}

/// A file of the repository.
fn stored_bytes(name: impl AsRef<Path>) -> Vec<u8> {
    let path = root().join(name);
    fs::read(&path).unwrap_or_else(|error| panic!("{}: {error}", path.display()))
}

fn stored(name: impl AsRef<Path>) -> String {
    String::from_utf8(stored_bytes(name)).expect("a text")
}

fn root() -> PathBuf {
    Path::new(env!("CARGO_MANIFEST_DIR")).join("../..")
}

#[test]
fn the_program_bounds_prints_what_this_program_finds() {
    let told = Told::read(&stored("crates/bounds/stdin"));
    let allowance = allowance(Some(&stored("crates/bounds/args")));
    assert_eq!(told.listing(allowance), stored("crates/bounds/stdout"));
}

#[test]
fn each_stored_table_is_listed_as_this_program_finds() {
    let folder = fs::read_dir(root().join("examples/bounds")).expect("the folder is there");
    let paths = folder.map(|entry| entry.expect("it can be listed").path());
    let ends_with = |path: &PathBuf, end: &str| path.extension().is_some_and(|it| it == end);
    let mut all = String::new();
    for path in paths.filter(|path| ends_with(path, "txt")) {
        let argument = fs::read_to_string(path.with_extension("args")).ok();
        let allowance = allowance(argument.as_deref());
        let listing = stored(path.with_extension("listing"));
        let found = Told::read(&stored(&path)).listing(allowance);
        assert_eq!(found, listing, "{}", path.display());
        all += &listing;
    }
    // Whatever the program can tell is told by some table.
    let refusals = [40, 41, 42, 43, 45, 46].map(refused);
    for words in refusals.iter().map(String::as_str).chain([LOST, WARNING]) {
        assert!(all.contains(words), "no table is told `{words}`");
    }
}

#[test]
fn a_run_above_the_bound_is_what_its_listing_says() {
    let table = Told::read(&stored("examples/bounds/above_the_bound.txt")).table;
    assert_eq!(answer(&table, 0, MOST), "bound 7 weighings 8");
    let listing = replay(&stored_bytes("examples/above-the-bound.trace"));
    let listing = String::from_utf8(listing).expect("a text");
    assert_eq!(listing, stored("examples/above-the-bound.listing"));
    // Server 0 executed its task for 1 tick, lent 6 and spun for 4.
    assert!(listing.contains("\nserver 0 running 89 1000 1 6 4\n"));
}
