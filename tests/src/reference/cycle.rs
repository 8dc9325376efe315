//! The cycle H and its jobs: refusals 7 and 8.

use super::request::{Request, Task};

pub const LONGEST_CYCLE: i64 = 10_000;
pub const MOST_JOBS: i64 = 128;

#[derive(Clone, Copy, Debug, PartialEq, Eq)]
pub struct Job {
    pub task: usize,
    /// j, the number of the job within its task.
    pub number: i64,
    /// C + g, what the job takes of its row.
    pub slot: i64,
    pub release: i64,
    pub due: i64,
}

/// A request within the limits, with its cycle and its jobs in planning order.
#[derive(Clone, Debug)]
pub struct Cycle {
    pub request: Request,
    pub h: i64,
    pub jobs: Vec<Job>,
}

/// The least multiple of the longest period that every period divides, if at most 10,000.
pub fn hyperperiod(tasks: &[Task]) -> Option<i64> {
    let longest = tasks.iter().map(|task| task.t).max()?;
    (1..)
        .map(|times| times * longest)
        .take_while(|h| *h <= LONGEST_CYCLE)
        .find(|h| tasks.iter().all(|task| h % task.t == 0))
}

/// All jobs of one cycle, by release and then by task number.
fn jobs_in_order(request: &Request, h: i64) -> Vec<Job> {
    let mut jobs = Vec::new();
    for (i, task) in request.tasks.iter().enumerate() {
        for j in 0..h / task.t {
            let release = task.p + j * task.t;
            jobs.push(Job {
                task: i,
                number: j,
                slot: request.slot(task),
                release,
                due: release + task.d,
            });
        }
    }
    jobs.sort_by_key(|job| (job.release, job.task));
    jobs
}

/// The cycle of a request, or 7, or 8.
pub fn of(request: Request) -> Result<Cycle, i32> {
    let h = hyperperiod(&request.tasks).ok_or(7)?;
    let count: i64 = request.tasks.iter().map(|task| h / task.t).sum();
    if count > MOST_JOBS {
        return Err(8);
    }
    let jobs = jobs_in_order(&request, h);
    Ok(Cycle { request, h, jobs })
}
