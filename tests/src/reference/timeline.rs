//! The timeline of a plan, every job of a cycle with its frame: the check's refusals, then 11.

use super::cycle::Cycle;
use super::{check, listing, read_cycle, table};
use crate::bus::RECORD_LEN;

/// A job of the timeline: its frame is counted from time 0, and its due time may pass H.
#[derive(Clone, Copy, Debug, PartialEq, Eq, PartialOrd, Ord)]
pub struct Record {
    pub task: usize,
    pub job: i64,
    pub release: i64,
    pub due: i64,
    pub frame: i64,
}

impl Record {
    pub fn bytes(&self) -> [u8; RECORD_LEN] {
        let mut bytes = [self.task as u8, self.job as u8, 0, 0, 0, 0, 0, 0];
        for (place, number) in [self.release, self.due, self.frame].iter().enumerate() {
            let at = 2 + 2 * place;
            bytes[at..at + 2].copy_from_slice(&(*number as u16).to_le_bytes());
        }
        bytes
    }
}

/// One record for each job, in planning order; the frames are those of the plan.
pub fn of_plan(cycle: &Cycle, frames: &[i64]) -> Vec<Record> {
    let jobs = cycle.jobs.iter().zip(frames);
    jobs.map(|(job, frame)| Record {
        task: job.task,
        job: job.number,
        release: job.release,
        due: job.due,
        frame: *frame,
    })
    .collect()
}

/// The records of a request with a table, or 1 to 8, 17, 12 to 14.
pub fn records(request: &[u8], table: &[u8]) -> Result<Vec<Record>, i32> {
    let cycle = read_cycle(request)?;
    let read = table::decode(table).ok_or(12)?;
    let frames = check::plan_in(&cycle, &read)?;
    Ok(of_plan(&cycle, &frames))
}

/// The sum of C over the records.
pub fn busy(cycle: &Cycle, records: &[Record]) -> i64 {
    let lengths = records.iter().map(|one| cycle.request.tasks[one.task].c);
    lengths.sum()
}

fn line(one: &Record) -> String {
    let fields = [one.task as i64, one.job, one.release, one.due, one.frame];
    let words = fields.map(|field| field.to_string());
    words.join(" ") + "\n"
}

/// What the program `timeline` prints for a request and what planning it came to.
pub fn printed(request: &[u8], chosen: &Result<table::Table, i32>) -> String {
    let chosen = match chosen {
        Ok(chosen) => chosen,
        Err(number) => return listing::of_refusal(*number),
    };
    let cycle = read_cycle(request).expect("it was planned");
    let frames = check::plan_in(&cycle, chosen).expect("it was planned");
    let records = of_plan(&cycle, &frames);
    let lines: String = records.iter().map(line).collect();
    format!("{lines}busy {}\n", busy(&cycle, &records))
}
