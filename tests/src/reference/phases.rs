//! Which phases of a task still fit: refusals 1 to 8 and 17 of the request, then 16.

use super::{planned_within, read_cycle};

/// Which task is shifted, and how many tries are allowed for each of its phases.
#[derive(Clone, Copy, Debug, PartialEq, Eq)]
pub struct Shift {
    pub task: u8,
    pub allowance: u64,
}

/// What planning comes to: a table as 0, or one of the numbers 9, 10 and 23; in the order of the counts.
pub const ENDS: [i32; 4] = [0, 9, 10, 23];

/// The request's own bytes with this phase for the task. Of its record of four numbers, which stands
/// behind n and the records before it, that is the last.
pub fn with_phase(bytes: &[u8], task: usize, phase: i64) -> Vec<u8> {
    let number = (phase as u16).to_le_bytes();
    let last = 1 + 8 * task + 6;
    [&bytes[..last], &number, &bytes[last + 2..]].concat()
}

/// For each phase from 0 to T − 1 what planning comes to, with the whole allowance.
pub fn ends(bytes: &[u8], shift: Shift) -> Result<Vec<i32>, i32> {
    let task = usize::from(shift.task);
    let cycle = read_cycle(bytes)?;
    let period = cycle.request.tasks.get(task).ok_or(16)?.t;
    let end = |phase: i64| {
        let (planned, _) = planned_within(&with_phase(bytes, task, phase), shift.allowance);
        planned.err().unwrap_or(0)
    };
    Ok((0..period).map(end).collect())
}

/// How many of the phases come to a table, to 9, to 10 and to 23.
pub fn counts(ends: &[i32]) -> [u16; 4] {
    ENDS.map(|wanted| ends.iter().filter(|end| **end == wanted).count() as u16)
}
