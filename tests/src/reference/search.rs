//! Looking for a plan: plain backtracking with recomputed sums, and for small requests a
//! list of all plans.

use super::cycle::Cycle;
use super::model::{is_plan, plausible_lengths, window};

/// In which order the frames of a window are tried.
#[derive(Clone, Copy, Debug, PartialEq, Eq)]
pub enum Direction {
    EarliestFirst,
    LatestFirst,
}

/// How many tests of a job in a frame were made, and how many may be.
#[derive(Clone, Copy, Debug)]
pub struct Effort {
    pub tries: u64,
    pub allowed: u64,
}

impl Effort {
    pub fn up_to(allowed: u64) -> Effort {
        Effort { tries: 0, allowed }
    }

    pub fn unlimited() -> Effort {
        Effort::up_to(u64::MAX)
    }
}

#[derive(Clone, Debug, PartialEq, Eq)]
pub enum Found {
    /// A frame for each job in planning order.
    Plan(Vec<i64>),
    NoPlan,
    /// The allowed effort was used up: nothing is known.
    TooHard,
}

pub(super) struct Problem<'a> {
    cycle: &'a Cycle,
    pub(super) f: i64,
    rows: i64,
    pub(super) windows: Vec<Vec<i64>>,
}

/// The sum of C + g of the jobs placed so far in a row.
fn load(problem: &Problem, placed: &[i64], row: i64) -> i64 {
    placed
        .iter()
        .zip(&problem.cycle.jobs)
        .filter(|(k, _)| **k % problem.rows == row)
        .map(|(_, job)| job.slot)
        .sum()
}

/// Whether the next job in frame k breaks no pair with a job placed before.
pub(super) fn in_order(problem: &Problem, placed: &[i64], k: i64) -> bool {
    let jobs = &problem.cycle.jobs;
    let next = &jobs[placed.len()];
    problem.cycle.request.pairs.iter().all(|&(a, b)| {
        placed.iter().zip(jobs).all(|(other_k, other)| {
            let same_number = other.number == next.number;
            let other_first = same_number && other.task == a && next.task == b;
            let next_first = same_number && next.task == a && other.task == b;
            (!other_first || *other_k <= k) && (!next_first || k <= *other_k)
        })
    })
}

/// Whether the row of frame k has room for the next job.
pub(super) fn has_room(problem: &Problem, placed: &[i64], k: i64) -> bool {
    let next = &problem.cycle.jobs[placed.len()];
    load(problem, placed, k % problem.rows) + next.slot <= problem.f
}

fn fits(problem: &Problem, placed: &[i64], k: i64) -> bool {
    has_room(problem, placed, k) && in_order(problem, placed, k)
}

fn place_rest(problem: &Problem, placed: &mut Vec<i64>, effort: &mut Effort) -> Found {
    let i = placed.len();
    if i == problem.cycle.jobs.len() {
        return Found::Plan(placed.clone());
    }
    for &k in &problem.windows[i] {
        if effort.tries == effort.allowed {
            return Found::TooHard;
        }
        effort.tries += 1;
        if !fits(problem, placed, k) {
            continue;
        }
        placed.push(k);
        let found = place_rest(problem, placed, effort);
        placed.pop();
        if found != Found::NoPlan {
            return found;
        }
    }
    Found::NoPlan
}

pub(super) fn problem(cycle: &Cycle, f: i64, direction: Direction) -> Problem<'_> {
    let rows = cycle.h / f;
    let mut windows: Vec<Vec<i64>> = cycle.jobs.iter().map(|job| window(job, f, rows)).collect();
    if direction == Direction::LatestFirst {
        windows.iter_mut().for_each(|frames| frames.reverse());
    }
    Problem {
        cycle,
        f,
        rows,
        windows,
    }
}

/// The first plan with length f in the order of the direction.
pub fn plan_of_length(cycle: &Cycle, f: i64, direction: Direction, effort: &mut Effort) -> Found {
    place_rest(&problem(cycle, f, direction), &mut Vec::new(), effort)
}

/// What the planner chooses.
#[derive(Clone, Debug, PartialEq, Eq)]
pub enum Choice {
    Plan {
        f: i64,
        frames: Vec<i64>,
    },
    /// 9 or 10.
    Refused(i32),
    TooHard,
}

/// The plan of the largest plausible length that has one.
pub fn choose(cycle: &Cycle, effort: &mut Effort) -> Choice {
    let lengths = plausible_lengths(cycle);
    if lengths.is_empty() {
        return Choice::Refused(9);
    }
    for f in lengths {
        match plan_of_length(cycle, f, Direction::EarliestFirst, effort) {
            Found::Plan(frames) => return Choice::Plan { f, frames },
            Found::NoPlan => {}
            Found::TooHard => return Choice::TooHard,
        }
    }
    Choice::Refused(10)
}

fn all_placings(windows: &[Vec<i64>]) -> Vec<Vec<i64>> {
    let mut placings = vec![Vec::new()];
    for frames in windows {
        let mut longer = Vec::new();
        for placing in &placings {
            for &k in frames {
                let mut next: Vec<i64> = placing.clone();
                next.push(k);
                longer.push(next);
            }
        }
        placings = longer;
    }
    placings
}

/// How many placings keep all windows with length f, if at most `limit`.
pub fn placings_within(cycle: &Cycle, f: i64, limit: usize) -> Option<usize> {
    let rows = cycle.h / f;
    let mut count = 1_usize;
    for job in &cycle.jobs {
        count *= window(job, f, rows).len();
        if count > limit {
            return None;
        }
    }
    Some(count)
}

/// Every plan with length f, by listing every placing. For small requests only.
pub fn all_plans(cycle: &Cycle, f: i64) -> Vec<Vec<i64>> {
    let windows = problem(cycle, f, Direction::EarliestFirst).windows;
    all_placings(&windows)
        .into_iter()
        .filter(|frames| is_plan(cycle, f, frames))
        .collect()
}
