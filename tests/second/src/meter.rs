//! Meter rows: what a caller is told of each server (rules 9.1 and 9.2).
//!
//! Assumes nothing of the state or of the rows lent.

use crate::refusal::{require, Refusal};
use crate::state::{Phase, Server, State};
use crate::step::{Answer, Outcome};

/// One server's state, budget and accounts.
#[derive(Clone, Copy, Debug, Default, PartialEq, Eq)]
pub struct MeterRow {
    pub phase: Phase,
    pub budget: u32,
    pub own: u32,
    pub lent: u32,
    pub spin: u32,
}

impl MeterRow {
    pub fn of(server: &Server) -> MeterRow {
        MeterRow {
            phase: server.phase,
            budget: server.budget,
            own: server.own,
            lent: server.lent,
            spin: server.spin,
        }
    }
}

/// Fills one row for each server and answers how many; rows past those stay. Refusals 1, 22.
pub fn read_meters(state: &State, rows: &mut [MeterRow]) -> Answer {
    require(state.is_sound(), Refusal::StateNotSound)?;
    let enough = rows.len() >= usize::from(state.tasks);
    require(enough, Refusal::TooFewMeterRows)?;
    for (row, server) in rows.iter_mut().zip(state.server_numbers()) {
        *row = MeterRow::of(&state[server]);
    }
    Ok(Outcome::Ok(u32::from(state.tasks)))
}
