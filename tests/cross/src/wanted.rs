//! What the cases have to reach, and how often: each answer, refusal, stop, clause of soundness,
//! branch of rule H and kind of deep state, and each kind of damage.
//!
//! Assumes that the names are those under which the families note what they reach.

use second::generate::coverage::Coverage;
use second::generate::damage::Damage;

/// States that break one clause alone, for each clause.
const PER_CLAUSE: u64 = 100;
/// Sound states that no events from fresh reach.
pub const OUT_OF_REACH: &str = "given state: sound, out of reach from fresh";
const TIMES_OUT_OF_REACH: u64 = 13_700;
/// States with any bytes past their counts.
pub const LITTERED: &str = "given state: any bytes past the counts";
const TIMES_LITTERED: u64 = 10_000;

/// What only the cross-check reaches, most of it as it speaks of bytes.
const OWN: [&str; 24] = [
    "fresh ok",
    "fresh refused 0",
    "fresh refused 19 for its length",
    "bound refused 40 for its length",
    "bound with weighings of 5 digits",
    "replay refused 0",
    "given state: made up",
    "given state: perturbed",
    OUT_OF_REACH,
    LITTERED,
    "given state: changed fields, sound",
    "given state: changed fields, not sound",
    "given state: no state's bytes",
    "step of an unknown kind",
    "step on no state's bytes",
    "executing executes",
    "executing spins",
    "executing not running",
    "executing refused 1",
    "is_sound ok",
    "is_sound refused 1",
    "meter refused 0",
    "meter on no state's bytes",
    "meter with rows past the tasks",
];

/// Each thing wanted, with how often.
fn wanted() -> Vec<(String, u64)> {
    let mut names: Vec<String> = Coverage::wanted();
    names.extend(OWN.map(String::from));
    names.extend(Damage::ALL.map(damage_name));
    let times = |name: &str| match name {
        OUT_OF_REACH => TIMES_OUT_OF_REACH,
        LITTERED => TIMES_LITTERED,
        _ if name.starts_with("broken alone: ") => PER_CLAUSE,
        _ => 1,
    };
    let with_times = names.into_iter().map(|name| {
        let times = times(&name);
        (name, times)
    });
    with_times.collect()
}

pub fn damage_name(damage: Damage) -> String {
    format!("damage: {damage:?}")
}

/// A line for each thing that was not reached often enough.
pub fn lacking(coverage: &Coverage) -> Vec<String> {
    let lacks = wanted().into_iter().filter_map(|(name, times)| {
        let reached = coverage.count(&name);
        (reached < times).then(|| format!("{name}: reached {reached} times, wanted {times}"))
    });
    lacks.collect()
}
