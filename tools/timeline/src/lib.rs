//! Draws a trace over the clock, for program `timeline`. `docs/TIMELINE.md` says what each sign
//! means.
//!
//! - `arguments`: the command line; `names`: the file of names;
//! - `records`: the events of a trace; `snapshot`: a state out of its bytes; `run`: the trace
//!   stepped through the proved static library;
//! - `spans` and `marks`: what is drawn as lengths of time and what as an instant; `words`: how it
//!   is said;
//! - `scale` and `layout`: where it is drawn; `markup`: what it is written in; `plot` and `lanes`:
//!   the picture; `legend`: what stands under it; `signs`: colours,
//!   patterns and marks;
//! - `svg` and `page`: the two kinds of file; `data`: what the page's script is given.
//!
//! Nothing of the machine is computed here. Every state, every answer and what each server does
//! come from the library, and so does the listing, the stop of a faulty trace with it.
//!
//! Assumes nothing of the trace or the names.

pub mod arguments;
pub mod data;
pub mod lanes;
pub mod layout;
pub mod legend;
pub mod marks;
pub mod markup;
pub mod names;
pub mod page;
pub mod plot;
pub mod records;
pub mod run;
pub mod scale;
pub mod signs;
pub mod snapshot;
pub mod spans;
pub mod svg;
pub mod words;
