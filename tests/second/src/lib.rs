//! The independent second program of the lock layer, written in plain Rust from the owner's text
//! and from no definition of the layer. The proved layer is compared with it, and timed against it.
//!
//! - `state`: the state, its chains, `fresh`, and soundness clause by clause;
//! - `step`: the eight events and rule H; `meter`: the rows a caller lends;
//! - `trace` and `replay`: reading a trace, and its listing; `states`: each state as text;
//! - `bound`: the interference bound; `section_text`: the text that program `bounds` reads;
//! - `image` and `library`: a state in bytes, and the static library's functions on such bytes;
//! - `generate`: seeded cases that reach deep states, and a count of what they reach.
//!
//! `cargo test` runs the tests; `generate report SEED ROUNDS` prints what the cases reach.
//!
//! Assumes nothing from the proved layer and shares no code with it. Rules are cited by their
//! numbers in `docs/RULES.md`.

pub mod bound;
pub mod generate;
pub mod image;
pub mod library;
pub mod meter;
pub mod refusal;
pub mod replay;
pub mod section_text;
pub mod state;
pub mod states;
pub mod step;
pub mod trace;
