//! The tests of this program: case R, the marked examples and known slips, the rules that could be
//! read otherwise, the stored traces, the table of refusals, the programs, states in bytes, and long
//! random runs.
//!
//! Assumes nothing. `bench.rs` holds the words that the other files are written in.

mod bench;
mod case_r;
mod examples;
mod figure_five;
mod fuzz;
mod generators;
mod image;
mod planners;
mod programs;
mod refusal_table;
mod rules_acting;
mod rules_bound;
mod rules_events;
mod rules_state;
mod rules_trace;
mod slips;
mod stored;
