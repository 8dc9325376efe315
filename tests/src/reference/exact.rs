//! The chosen plan however long the search for it would be: row by row round the cycle, over the sets
//! of jobs that have their frame, with remembered failures. Nothing of the search is used.
//!
//! A window is no longer than the cycle, so a job has at most one frame in each row, and round the
//! cycle its rows follow each other. The rows are walked once, from a seam on, after each job whose
//! frames lie on both sides of the seam was given one side. It is then known of every job, in the row
//! where the walk stands, whether it has its frame already: that set alone tells what can follow.

use std::collections::HashSet;

use super::cycle::Cycle;
use super::model::{plausible_lengths, window};
use super::search::Choice;

/// The frames that a job may have, from the first to the last.
#[derive(Clone, Copy, Debug)]
struct Frames {
    first: i64,
    last: i64,
}

/// A set of jobs, by their places in planning order.
type Jobs = u128;

fn has(jobs: Jobs, job: usize) -> bool {
    jobs >> job & 1 == 1
}

fn with(jobs: Jobs, job: usize) -> Jobs {
    jobs | 1 << job
}

/// Frames of one length.
struct Length {
    f: i64,
    rows: i64,
    slots: Vec<i64>,
    /// All jobs, by rising task number: one that must not stand later comes before the other.
    by_task: Vec<usize>,
    /// For each job those that must not stand in a later frame.
    not_later: Vec<Vec<usize>>,
}

impl Length {
    fn of(cycle: &Cycle, f: i64) -> Length {
        let jobs = &cycle.jobs;
        let mut by_task: Vec<usize> = (0..jobs.len()).collect();
        by_task.sort_by_key(|job| jobs[*job].task);
        let before = |a: usize, b: usize| {
            let pair = (jobs[a].task, jobs[b].task);
            jobs[a].number == jobs[b].number && cycle.request.pairs.contains(&pair)
        };
        let all = || 0..jobs.len();
        Length {
            f,
            rows: cycle.h / f,
            slots: jobs.iter().map(|job| job.slot).collect(),
            by_task,
            not_later: all()
                .map(|b| all().filter(|a| before(*a, b)).collect())
                .collect(),
        }
    }

    /// Of the plans within these frames the one whose first job is in the earliest frame, of these
    /// the one whose second job is, and so on. A job's frames are cut shorter until none is left.
    fn first_plan(&self, mut frames: Vec<Frames>) -> Option<Vec<i64>> {
        let mut plan = self.some_plan(&frames)?;
        for job in 0..plan.len() {
            while frames[job].first < plan[job] {
                frames[job].last = plan[job] - 1;
                match self.some_plan(&frames) {
                    Some(earlier) => plan = earlier,
                    None => frames[job].first = plan[job],
                }
            }
            frames[job].last = plan[job];
        }
        Some(plan)
    }

    /// Some plan within these frames. The seam is the row with the fewest jobs to be given a side.
    fn some_plan(&self, frames: &[Frames]) -> Option<Vec<i64>> {
        let across = |seam: &i64| {
            let both = |of: &&Frames| self.is_across(**of, *seam);
            frames.iter().filter(both).count()
        };
        let seam = (0..self.rows).min_by_key(across)?;
        self.plan_from(seam, frames.to_vec())
    }

    /// How many rows the walk from the seam makes before that of the frame.
    fn step(&self, frame: i64, seam: i64) -> i64 {
        (frame - seam).rem_euclid(self.rows)
    }

    fn is_across(&self, of: Frames, seam: i64) -> bool {
        self.step(of.first, seam) > self.step(of.last, seam)
    }

    /// The frames without those that a pair rules out, or none if no frame of some job is left.
    fn in_order(&self, mut frames: Vec<Frames>) -> Option<Vec<Frames>> {
        for &b in &self.by_task {
            for &a in &self.not_later[b] {
                frames[b].first = frames[b].first.max(frames[a].first);
            }
        }
        for &b in self.by_task.iter().rev() {
            for &a in &self.not_later[b] {
                frames[a].last = frames[a].last.min(frames[b].last);
            }
        }
        let some_left = frames.iter().all(|of| of.first <= of.last);
        some_left.then_some(frames)
    }

    /// Some plan within these frames: each job across the seam is tried on its one side, then on the
    /// other.
    fn plan_from(&self, seam: i64, frames: Vec<Frames>) -> Option<Vec<i64>> {
        let mut frames = self.in_order(frames)?;
        let Some(job) = frames.iter().position(|of| self.is_across(*of, seam)) else {
            return Walk::along(self, seam, &frames).plan();
        };
        let first = frames[job].first;
        let behind = first + self.rows - self.step(first, seam);
        let mut before = frames.clone();
        before[job].last = behind - 1;
        frames[job].first = behind;
        self.plan_from(seam, before)
            .or_else(|| self.plan_from(seam, frames))
    }
}

/// A walk through the rows from the seam on, each job on one side of it.
struct Walk<'a> {
    length: &'a Length,
    frames: &'a [Frames],
    /// The step of each job's first frame.
    begins: Vec<i64>,
    /// The frames given so far.
    plan: Vec<i64>,
    /// Steps and the sets of jobs that had their frame before it, without a plan.
    failed: HashSet<(i64, Jobs)>,
}

/// The jobs that may stand in a row and have no frame yet.
struct Row {
    step: i64,
    waiting: Vec<usize>,
}

impl Walk<'_> {
    fn along<'a>(length: &'a Length, seam: i64, frames: &'a [Frames]) -> Walk<'a> {
        let begin = |of: &Frames| length.step(of.first, seam);
        Walk {
            length,
            frames,
            begins: frames.iter().map(begin).collect(),
            plan: vec![0; frames.len()],
            failed: HashSet::new(),
        }
    }

    fn plan(mut self) -> Option<Vec<i64>> {
        self.goes_on(0, 0).then_some(self.plan)
    }

    /// The step of a job's last frame.
    fn end(&self, job: usize) -> i64 {
        let Frames { first, last } = self.frames[job];
        self.begins[job] + last - first
    }

    /// The job's frame in the row of the step.
    fn frame(&self, job: usize, step: i64) -> i64 {
        self.frames[job].first + step - self.begins[job]
    }

    /// Whether the rows from the step on can hold all other jobs.
    fn goes_on(&mut self, step: i64, done: Jobs) -> bool {
        if step == self.length.rows {
            return true;
        }
        if self.failed.contains(&(step, done)) || self.asks_too_much(step, done) {
            return false;
        }
        let may_stand =
            |job: &usize| !has(done, *job) && self.begins[*job] <= step && step <= self.end(*job);
        let jobs = self.length.by_task.iter().copied();
        let waiting = jobs.filter(may_stand).collect();
        let found = self.fills(&Row { step, waiting }, 0, done, self.length.f);
        if !found {
            self.failed.insert((step, done));
        }
        found
    }

    /// Whether the jobs without a frame ask for more, up to some row, than there is.
    fn asks_too_much(&self, step: i64, done: Jobs) -> bool {
        let mut asked = vec![0; self.length.rows as usize];
        for job in (0..self.frames.len()).filter(|job| !has(done, *job)) {
            asked[self.end(job) as usize] += self.length.slots[job];
        }
        let mut room = 0;
        (step..self.length.rows).any(|row| {
            room += self.length.f - asked[row as usize];
            room < 0
        })
    }

    /// Whether those that must not stand later than the job do not, if it stands in this row.
    fn in_order(&self, job: usize, step: i64, done: Jobs) -> bool {
        let k = self.frame(job, step);
        self.length.not_later[job].iter().all(|&a| {
            let Frames { first, last } = self.frames[a];
            last <= k || first <= k && has(done, a)
        })
    }

    fn fits(&self, job: usize, step: i64, done: Jobs, room: i64) -> bool {
        self.length.slots[job] <= room && self.in_order(job, step, done)
    }

    /// Whether some of the waiting jobs from this one on can stand in the row and all goes on. A row
    /// that could take one more is left: if all goes on from it, so it does with that job moved there.
    fn fills(&mut self, row: &Row, next: usize, done: Jobs, room: i64) -> bool {
        let step = row.step;
        let Some(&job) = row.waiting.get(next) else {
            let mut left_out = row.waiting.iter().filter(|job| !has(done, **job));
            let one_more = left_out.any(|job| self.fits(*job, step, done, room));
            return !one_more && self.goes_on(step + 1, done);
        };
        if self.fits(job, step, done, room) {
            self.plan[job] = self.frame(job, step);
            let room = room - self.length.slots[job];
            if self.fills(row, next + 1, with(done, job), room) {
                return true;
            }
        }
        step < self.end(job) && self.fills(row, next + 1, done, room)
    }
}

/// The first plan with length f in the search's order.
pub fn plan_of_length(cycle: &Cycle, f: i64) -> Option<Vec<i64>> {
    let of_window = |frames: Vec<i64>| {
        let (first, last) = (*frames.first()?, *frames.last()?);
        Some(Frames { first, last })
    };
    let windows = cycle.jobs.iter().map(|job| window(job, f, cycle.h / f));
    let frames: Option<Vec<Frames>> = windows.map(of_window).collect();
    Length::of(cycle, f).first_plan(frames?)
}

/// The plan of the largest plausible length that has one.
pub fn choose(cycle: &Cycle) -> Choice {
    let lengths = plausible_lengths(cycle);
    let number = if lengths.is_empty() { 9 } else { 10 };
    let plan = |f: i64| plan_of_length(cycle, f).map(|frames| Choice::Plan { f, frames });
    let mut plans = lengths.into_iter().filter_map(plan);
    plans.next().unwrap_or(Choice::Refused(number))
}
