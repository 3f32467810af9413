//! Seeded cases for comparing the proved layer with this program, with a count of what they reach.
//!
//! - `runs`: `Run::any(seed, length)`, a table with events, and its trace;
//! - `damage`: `damaged_trace` and `trace_with`, traces that are faulty in every way;
//! - `long`: `longest`, `too_long` and `past_the_clock`, traces that are too long to store;
//! - `sections`: `good_question`, `tight_questions` and `bad_question` for the bound;
//! - `states`: `sound_state`, `perturbed_state`, `broken_state` and `tangled_state`, which no events
//!   need reach;
//! - `tables`: `good_table` and `bad_table` for `fresh`;
//! - `events` and `scenes`: how a run picks its events; `random`: the generator under all of them;
//! - `coverage` and `survey`: what is to be reached, and how often it is; `acting`: what of it is told
//!   of tasks that may not act.
//!
//! Assumes only that this program's own steps are right enough to steer by: the generators keep
//! its state in order to pick events that are mostly enabled. A case is fixed by its seed.

pub mod acting;
pub mod coverage;
pub mod damage;
pub mod events;
pub mod long;
pub mod random;
pub mod runs;
pub mod scenes;
pub mod sections;
pub mod states;
pub mod survey;
pub mod tables;
