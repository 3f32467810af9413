//! The cross-check: the proved layer, called through its static library, and the independent second
//! program answer the same cases, named and seeded, and every answer and every byte left behind is
//! compared.
//!
//! - `sides`: the two sides, as one trait on numbers and bytes; `answer`: an answer's 64 bits;
//! - `case`: one question to both sides, and what a side is seen to answer;
//! - `families`: which cases there are, and how many of each;
//! - `wanted`: what the cases have to reach;
//! - `shrink` and `text`: a difference is made small and shown in words; `layout`: a state's fields.
//!
//! Program `cross` runs it all; program `measure` runs single calls, to be counted by callgrind.
//! Assumes nothing of either side but that a call comes to an end.

pub mod answer;
pub mod case;
pub mod families;
pub mod layout;
pub mod shrink;
pub mod sides;
pub mod text;
pub mod wanted;
