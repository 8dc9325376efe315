//! Checking a table against a request: refusals 13 and 14.

use std::collections::BTreeMap;

use super::cycle::Cycle;
use super::model::{is_plan, plausible};
use super::table::Table;

/// Every entry's frame, gathered by the task and job it names.
fn frames_by_job(table: &Table) -> BTreeMap<(i64, i64), Vec<i64>> {
    let count = table.rows.len() as i64;
    let mut frames: BTreeMap<(i64, i64), Vec<i64>> = BTreeMap::new();
    for (row, entries) in table.rows.iter().enumerate() {
        for entry in entries {
            let k = row as i64 + if entry.carry { count } else { 0 };
            frames.entry((entry.task, entry.job)).or_default().push(k);
        }
    }
    frames
}

/// One frame for each job in planning order, if the table names each exactly once and no other.
fn frames_in_order(cycle: &Cycle, table: &Table) -> Option<Vec<i64>> {
    let mut named = frames_by_job(table);
    let mut frames = Vec::new();
    for job in &cycle.jobs {
        let found = named.remove(&(job.task as i64, job.number))?;
        if found.len() != 1 {
            return None;
        }
        frames.push(found[0]);
    }
    named.is_empty().then_some(frames)
}

/// The plan that the table describes, or 13, or 14.
pub fn plan_in(cycle: &Cycle, table: &Table) -> Result<Vec<i64>, i32> {
    if table.h != cycle.h || !plausible(cycle, table.f) {
        return Err(13);
    }
    frames_in_order(cycle, table)
        .filter(|frames| is_plan(cycle, table.f, frames))
        .ok_or(14)
}
