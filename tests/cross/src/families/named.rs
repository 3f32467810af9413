//! Named cases, stored as text: each from its fresh state, event by event, and replayed as a whole.
//!
//! Assumes that a stored text is a good trace; one that is not ends the program.

use super::traces::{compared_step, replay_case};
use crate::case::Case;
use second::generate::coverage::Coverage;
use second::image::STATE_BYTES;
use second::library::table_bytes;
use second::state::{fresh, State};
use second::trace::{Place, Reading, TableReader};
use trace::assemble::assemble;

pub fn named(text: &[u8], coverage: &mut Coverage) -> Vec<Case> {
    let trace = assemble(text).expect("a named case can be assembled");
    let mut cases = vec![replay_case(trace.clone())];
    let mut table = TableReader::default();
    let mut state = State::default();
    let mut place = Place::start(&trace);
    while let Reading::Record(record, next) = place.read().expect("a named case can be read") {
        let event = table.accept(record).expect("a named case is in order");
        match (event, table.finished()) {
            (Some(event), _) => {
                cases.extend(compared_step(coverage, &mut state, event));
            }
            (None, Some(table)) => {
                cases.push(Case::Fresh {
                    table: table_bytes(table),
                    room: STATE_BYTES,
                });
                state = fresh(table).0;
            }
            (None, None) => (),
        }
        place = next;
    }
    cases
}
