//! Program `cross`: compares the proved layer with the second program on all families of cases,
//! prints what they reach, and fails on any difference or on anything never reached.
//!
//! `cross` is what the gate runs; `cross first` ends at the first difference, as the mutants need
//! it. Assumes nothing.

use cross::case::Sides;
use cross::families::{Family, FAMILIES};
use cross::sides::{Proved, Second};
use cross::wanted::lacking;
use second::generate::coverage::Coverage;
use std::process::ExitCode;
use std::time::Instant;

const SEED: u64 = 20_260_101;

fn main() -> ExitCode {
    let words: Vec<String> = std::env::args().skip(1).collect();
    let only_first = match words.iter().map(String::as_str).collect::<Vec<_>>()[..] {
        [] => false,
        ["first"] => true,
        _ => {
            eprintln!("usage: cross [first]");
            return ExitCode::FAILURE;
        }
    };
    let sides = Sides {
        proved: &Proved,
        second: &Second,
    };
    let mut coverage = Coverage::default();
    let (mut passed, mut failed) = (0, 0);
    for family in &FAMILIES {
        if compared(&sides, family, &mut coverage) {
            passed += 1;
        } else if only_first {
            return ExitCode::FAILURE;
        } else {
            failed += 1;
        }
    }
    print!("\nHow often each was reached:\n{}", coverage.counts());
    let lacks = lacking(&coverage);
    lacks.iter().for_each(|line| println!("not enough: {line}"));
    if lacks.is_empty() {
        passed += 1;
    } else {
        failed += 1;
    }
    println!("{passed} passed, {failed} failed");
    if failed == 0 {
        ExitCode::SUCCESS
    } else {
        ExitCode::FAILURE
    }
}

/// Whether the sides agree on the whole family; a difference is printed.
fn compared(sides: &Sides, family: &Family, coverage: &mut Coverage) -> bool {
    let start = Instant::now();
    let outcome = family.compare(sides, SEED, coverage);
    let seconds = start.elapsed().as_secs_f32();
    let comparisons = outcome.comparisons;
    match outcome.difference {
        None => {
            let (name, size) = (family.name, family.size);
            println!(
                "{name}: {size} cases, {comparisons} comparisons, no difference ({seconds:.1} s)"
            );
            true
        }
        Some(difference) => {
            println!("{}: case {} differs", family.name, difference.number);
            println!("{}", difference.text);
            false
        }
    }
}
