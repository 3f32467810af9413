//! Replaying a whole trace: the listing of program `replay` (rules 14.1 to 14.5).
//!
//! Assumes nothing of the bytes; a file above 60,000 bytes may be given cut to one byte more.

use crate::refusal::Refusal;
use crate::state::{fresh, State};
use crate::states::phase_word;
use crate::step::{step_sound, Answer};
use crate::trace::{check_size, Place, Reading, Record, TableReader};
use std::fmt::Write;

/// The whole listing; every line ends with a newline.
pub fn replay(bytes: &[u8]) -> Vec<u8> {
    let mut replay = Replay::default();
    if let Err(fault) = replay.run(bytes) {
        replay.line(format_args!(
            "stop {} {}",
            fault.offset,
            fault.refusal.number()
        ));
    }
    replay.listing.into_bytes()
}

/// What ends a listing early, and the offset of the record at fault.
struct Fault {
    offset: usize,
    refusal: Refusal,
}

#[derive(Default)]
struct Replay {
    listing: String,
    table: TableReader,
    /// There from the table's end on.
    state: Option<State>,
    events: u32,
}

impl Replay {
    /// The records one after the other, up to the first fault (rule 14.3).
    fn run(&mut self, bytes: &[u8]) -> Result<(), Fault> {
        check_size(bytes).map_err(|refusal| Fault { offset: 0, refusal })?;
        let mut place = Place::start(bytes);
        loop {
            let offset = place.offset;
            let at_place = |refusal| Fault { offset, refusal };
            match place.read().map_err(at_place)? {
                Reading::Record(record, next) => {
                    self.take(record).map_err(at_place)?;
                    place = next;
                }
                Reading::End => return self.end().map_err(at_place),
            }
        }
    }

    fn take(&mut self, record: Record) -> Result<(), Refusal> {
        let event = self.table.accept(record)?;
        if let (Some(event), Some(state)) = (event, self.state.as_mut()) {
            // Sound, as it came from fresh by steps alone.
            let answer = step_sound(state, event);
            self.answer_line(answer);
        } else if let Some(table) = self.table.finished() {
            let (state, accepted) = fresh(table);
            accepted?;
            self.state = Some(state);
        }
        Ok(())
    }

    /// Without a finished table the file's end is out of order (rule 14.4).
    fn end(&mut self) -> Result<(), Refusal> {
        let state = self.state.ok_or(Refusal::RecordOutOfOrder)?;
        self.line(format_args!("end {}", state.clock));
        for number in state.server_numbers() {
            let server = &state[number];
            self.line(format_args!(
                "server {} {} {} {} {} {} {}",
                number.0,
                phase_word(server.phase),
                server.budget,
                server.deadline,
                server.own,
                server.lent,
                server.spin
            ));
        }
        for number in state.task_numbers() {
            let executed = state[number].executed;
            self.line(format_args!("task {} {executed}", number.0));
        }
        Ok(())
    }

    fn answer_line(&mut self, answer: Answer) {
        self.events += 1;
        let event = self.events;
        let (word, number, follows) = match answer {
            Ok(outcome) => (outcome.word(), outcome.number(), None),
            Err(refusal) => ("refused", u32::from(refusal.number()), refusal.follows()),
        };
        match follows {
            None => self.line(format_args!("{event} {word} {number}")),
            Some(further) => self.line(format_args!("{event} {word} {number} {further}")),
        }
    }

    fn line(&mut self, text: std::fmt::Arguments) {
        // Writing to a string cannot fail.
        let _ = writeln!(self.listing, "{text}");
    }
}
