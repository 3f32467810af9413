//! The families of cases: what each compares, and how many it makes. After the library's layout come
//! named cases, each a stored trace; then seeded ones. A case is fixed by the seed, its family and
//! its number.
//!
//! Assumes nothing.

mod named;
mod states;
mod tables;
mod traces;

use crate::case::{Case, Sides};
use crate::shrink::shrunk;
use crate::text::{case_text, difference_text};
use second::generate::coverage::Coverage;
use second::generate::random::Random;

/// Makes the comparisons of one case and notes what they reach.
type Maker = fn(&mut Random, u64, &mut Coverage) -> Vec<Case>;

pub struct Family {
    pub name: &'static str,
    /// How many cases the gate compares.
    pub size: u64,
    make: Maker,
}

const fn family(name: &'static str, size: u64, make: Maker) -> Family {
    Family { name, size, make }
}

/// A stored text of a trace as a family of one case.
macro_rules! named {
    ($name:literal, $file:literal) => {
        family($name, 1, |_, _, coverage| {
            named::named(include_bytes!($file), coverage)
        })
    };
}

/// Of the states, 20,000 and more are sound and out of reach from fresh, or break one clause alone.
pub const FAMILIES: [Family; 17] = [
    family("layout of the library", 1, |_, _, _| vec![Case::Layout]),
    named!("case R", "../../../tools/trace/examples/case-r.txt"),
    named!(
        "case 1, pass to a holder",
        "../cases/1-pass-to-a-holder.txt"
    ),
    named!(
        "case 2, own server recharging",
        "../cases/2-own-server-recharging.txt"
    ),
    named!(
        "case 3, behind a sleeper",
        "../cases/3-behind-a-sleeper.txt"
    ),
    named!(
        "case 4, both need a server",
        "../cases/4-both-need-a-server.txt"
    ),
    named!("case 5, three serve one", "../cases/5-three-serve-one.txt"),
    named!("case 6, who may not act", "../cases/6-who-may-not-act.txt"),
    family("made-up sound states", 14_000, states::made_up),
    family("perturbed sound states", 2_500, states::perturbed),
    family("states with one clause broken", 6_300, states::broken),
    family("states with fields changed", 6_000, states::changed),
    family("tables for fresh", 3_000, tables::fresh_tables),
    family("section tables", 5_000, tables::section_tables),
    family("traces", 20_000, traces::good),
    family("damaged traces", 5_000, traces::damaged),
    family("runs step by step", 1_000, traces::step_by_step),
];

/// Where the sides differed.
pub struct Difference {
    pub number: u64,
    /// The case made small, in words.
    pub text: String,
}

pub struct Outcome {
    pub comparisons: u64,
    pub difference: Option<Difference>,
}

impl Family {
    /// Compares the family's cases up to the first difference.
    pub fn compare(&self, sides: &Sides, seed: u64, coverage: &mut Coverage) -> Outcome {
        let mut comparisons = 0;
        for number in 0..self.size {
            for case in self.case(seed, number, coverage) {
                comparisons += 1;
                if sides.differ(&case) {
                    let text = told(sides, &shrunk(sides, &case));
                    let difference = Some(Difference { number, text });
                    return Outcome {
                        comparisons,
                        difference,
                    };
                }
            }
        }
        Outcome {
            comparisons,
            difference: None,
        }
    }

    fn case(&self, seed: u64, number: u64, coverage: &mut Coverage) -> Vec<Case> {
        // The name tells the families' cases apart.
        let name = self.name.bytes().map(u64::from);
        let own = name.fold(seed, |mixed, byte| Random::new(mixed ^ byte).draw());
        let mut random = Random::new(own.wrapping_add(number));
        (self.make)(&mut random, number, coverage)
    }
}

fn told(sides: &Sides, case: &Case) -> String {
    let difference = difference_text(case, &sides.seen(case));
    format!("{}{difference}", case_text(case))
}
