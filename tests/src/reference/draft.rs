//! Moving a job by hand: refusals 1 to 8 and 17 of the request, then 26, 27 and 28.
//!
//! Nothing is added to a load or taken off it: behind every move the rows are summed up anew. A put is
//! judged by the draft that it would leave.

use super::cycle::{Cycle, Job};
use super::model::{in_window, plausible};
use super::table::{self, Table};
use super::{check, read_cycle};
use crate::bus::DRAFT_LEN;

/// Places for jobs, and for rows, in a draft.
pub const JOBS: usize = 128;
pub const ROWS: usize = 256;

/// Stands in the place of a frame where the job is lifted.
pub const LIFTED: u16 = 65_535;

#[derive(Clone, Debug, PartialEq, Eq)]
pub struct Draft {
    pub f: u16,
    /// The frame of each job in planning order, or that it is lifted.
    pub frames: Vec<u16>,
    /// The load of each row.
    pub loads: Vec<u16>,
}

impl Draft {
    /// A draft with frames of f ticks and unused places only.
    pub fn unused(f: u16) -> Draft {
        Draft {
            f,
            frames: vec![0; JOBS],
            loads: vec![0; ROWS],
        }
    }

    /// The draft in the first 770 bytes, whatever they hold.
    pub fn read(bytes: &[u8]) -> Draft {
        let two_by_two = bytes[..DRAFT_LEN].chunks(2);
        let words = two_by_two.map(|two| u16::from_le_bytes([two[0], two[1]]));
        let words: Vec<u16> = words.collect();
        let (frames, loads) = words[1..].split_at(JOBS);
        Draft {
            f: words[0],
            frames: frames.to_vec(),
            loads: loads.to_vec(),
        }
    }

    pub fn bytes(&self) -> Vec<u8> {
        let words = [&[self.f], &self.frames[..], &self.loads[..]].concat();
        words.iter().flat_map(|word| word.to_le_bytes()).collect()
    }

    /// The jobs of the cycle that are placed, each with its frame.
    pub fn placed<'a>(&self, cycle: &'a Cycle) -> Vec<(&'a Job, i64)> {
        let jobs = cycle.jobs.iter().zip(&self.frames);
        jobs.filter(|(_, k)| **k != LIFTED)
            .map(|(job, k)| (job, i64::from(*k)))
            .collect()
    }

    /// Of each row the sum of C + g of the jobs placed in it, for an f that cuts the cycle into rows.
    pub fn row_sums(&self, cycle: &Cycle) -> Vec<i64> {
        let rows = cycle.h / i64::from(self.f);
        let placed = self.placed(cycle);
        let sum = |row: i64| {
            let there = placed.iter().filter(|(_, k)| k % rows == row);
            there.map(|(job, _)| job.slot).sum()
        };
        (0..rows).map(sum).collect()
    }

    /// The same frames, and for each row of the cycle the low 16 bits of its sum.
    pub fn summed_up(mut self, cycle: &Cycle) -> Draft {
        let sums = self.row_sums(cycle);
        for (load, sum) in self.loads.iter_mut().zip(sums) {
            *load = sum as u16;
        }
        self
    }

    /// Whether the job at this place is lifted; nothing if the cycle has no such job.
    fn lifted(&self, cycle: &Cycle, job: usize) -> Option<bool> {
        (job < cycle.jobs.len()).then(|| self.frames[job] == LIFTED)
    }
}

/// For every pair a, b, job j of a is in no later frame than job j of b, if both are placed.
fn in_order(cycle: &Cycle, placed: &[(&Job, i64)]) -> bool {
    let of = |task: usize| placed.iter().filter(move |(job, _)| job.task == task);
    cycle.request.pairs.iter().all(|&(a, b)| {
        of(a).all(|(one, k)| {
            let partner = of(b).filter(|(two, _)| one.number == two.number);
            partner.map(|(_, later)| later).all(|later| k <= later)
        })
    })
}

/// Whether the draft's frame length is plausible, its loads are its row sums, and its placed jobs keep
/// window, capacity and order.
pub fn sound(cycle: &Cycle, draft: &Draft) -> bool {
    let f = i64::from(draft.f);
    if !plausible(cycle, f) {
        return false;
    }
    let (sums, placed) = (draft.row_sums(cycle), draft.placed(cycle));
    let mut rows = sums.iter().zip(&draft.loads);
    rows.all(|(sum, load)| *sum == i64::from(*load) && *sum <= f)
        && placed.iter().all(|(job, k)| in_window(job, f, *k))
        && in_order(cycle, &placed)
}

/// The draft of an accepted table, or the check's number.
pub fn start(request: &[u8], table: &[u8]) -> Result<Draft, i32> {
    let cycle = read_cycle(request)?;
    let read = table::decode(table).ok_or(12)?;
    let frames = check::plan_in(&cycle, &read)?;
    let mut draft = Draft::unused(read.f as u16);
    for (place, k) in draft.frames.iter_mut().zip(frames) {
        *place = k as u16;
    }
    Ok(draft.summed_up(&cycle))
}

/// The draft with the job lifted, or 1 to 8, 17 or 26.
pub fn lift(request: &[u8], job: u8, mut draft: Draft) -> Result<Draft, i32> {
    let cycle = read_cycle(request)?;
    let job = usize::from(job);
    if !sound(&cycle, &draft) || draft.lifted(&cycle, job) != Some(false) {
        return Err(26);
    }
    draft.frames[job] = LIFTED;
    Ok(draft.summed_up(&cycle))
}

/// The draft with the job in the frame, or 1 to 8, 17, 26, 27 or 28.
pub fn put(request: &[u8], job: u8, frame: u16, mut draft: Draft) -> Result<Draft, i32> {
    let cycle = read_cycle(request)?;
    let job = usize::from(job);
    if !sound(&cycle, &draft) || draft.lifted(&cycle, job) != Some(true) {
        return Err(26);
    }
    if !in_window(&cycle.jobs[job], i64::from(draft.f), i64::from(frame)) {
        return Err(27);
    }
    draft.frames[job] = frame;
    let after = draft.summed_up(&cycle);
    if sound(&cycle, &after) {
        Ok(after)
    } else {
        Err(28)
    }
}

/// The table of exactly the draft's frame length and frames, or 1 to 8, 17 or 26.
pub fn write(request: &[u8], draft: &Draft) -> Result<Table, i32> {
    let cycle = read_cycle(request)?;
    let placed = draft.placed(&cycle);
    if !sound(&cycle, draft) || placed.len() < cycle.jobs.len() {
        return Err(26);
    }
    let frames: Vec<i64> = placed.iter().map(|(_, k)| *k).collect();
    Ok(table::of_plan(&cycle, i64::from(draft.f), &frames))
}
