//! The dispatcher's state, next-frame and report.

use crate::bus::TASKS;

use super::request::Request;
use super::table::{Entry, Table};

pub const MOST_OVERRUNS: i64 = 65_535;

#[derive(Clone, Copy, Debug, PartialEq, Eq)]
pub struct State {
    pub row: i64,
    pub first_cycle: bool,
    /// For each task.
    pub overruns: [i64; TASKS],
}

pub fn fresh() -> State {
    State {
        row: 0,
        first_cycle: true,
        overruns: [0; TASKS],
    }
}

/// The entries served and the next state, or 15.
pub fn next_frame(table: &Table, state: State) -> Result<(Vec<Entry>, State), i32> {
    let row = table.rows.get(state.row as usize).ok_or(15)?;
    let served = row
        .iter()
        .filter(|entry| !(entry.carry && state.first_cycle))
        .copied()
        .collect();
    let last = state.row + 1 == table.rows.len() as i64;
    let next = State {
        row: if last { 0 } else { state.row + 1 },
        first_cycle: state.first_cycle && !last,
        overruns: state.overruns,
    };
    Ok((served, next))
}

/// The state after a report, or 16.
pub fn report(request: &Request, task: u8, ticks: u32, state: State) -> Result<State, i32> {
    let number = usize::from(task);
    let task = request.tasks.get(number).ok_or(16)?;
    let mut next = state;
    if i64::from(ticks) > task.c {
        next.overruns[number] = (state.overruns[number] + 1).min(MOST_OVERRUNS);
    }
    Ok(next)
}
