//! Traces as readable text, both ways, for program `trace` and for tests that show a trace. The
//! text is described in `FORMAT.md`.
//!
//! Assumes nothing of the text or the bytes.

pub mod assemble;
pub mod disassemble;
mod records;
#[cfg(test)]
mod round_trips;
