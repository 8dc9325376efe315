//! The tests that the full search makes, one behind the other, with no allowance in them: how many
//! there are is the count of tries, and an allowance is too small exactly if there is one test more.

use std::vec;

use super::cycle::Cycle;
use super::model::plausible_lengths;
use super::search::{has_room, in_order, problem, Direction, Problem};

/// A job tested in a frame of its window, the jobs before it placed.
#[derive(Clone, Copy, Debug, PartialEq, Eq)]
pub struct Test {
    pub f: i64,
    pub job: usize,
    pub frame: i64,
    pub has_room: bool,
    pub in_order: bool,
}

impl Test {
    pub fn passed_over(&self) -> bool {
        !(self.has_room && self.in_order)
    }
}

/// The search at one length: the frames of the jobs that are placed, and of each of them and of the
/// next one how many frames of its window have been tested.
struct Stage<'a> {
    problem: Problem<'a>,
    placed: Vec<i64>,
    tested: Vec<usize>,
}

/// All tests, length by length from the largest, up to the one that completes the first plan.
pub struct Tests<'a> {
    cycle: &'a Cycle,
    lengths: vec::IntoIter<i64>,
    stage: Option<Stage<'a>>,
}

impl<'a> Tests<'a> {
    pub fn of(cycle: &'a Cycle) -> Tests<'a> {
        let mut tests = Tests {
            cycle,
            lengths: plausible_lengths(cycle).into_iter(),
            stage: None,
        };
        tests.next_length();
        tests
    }

    fn next_length(&mut self) {
        let cycle = self.cycle;
        self.stage = self.lengths.next().map(|f| Stage {
            problem: problem(cycle, f, Direction::EarliestFirst),
            placed: Vec::new(),
            tested: vec![0],
        });
    }
}

impl Iterator for Tests<'_> {
    type Item = Test;

    fn next(&mut self) -> Option<Test> {
        while let Some(stage) = &mut self.stage {
            let job = stage.placed.len();
            if job == self.cycle.jobs.len() {
                return None;
            }
            let window = &stage.problem.windows[job];
            if let Some(&frame) = window.get(stage.tested[job]) {
                let test = Test {
                    f: stage.problem.f,
                    job,
                    frame,
                    has_room: has_room(&stage.problem, &stage.placed, frame),
                    in_order: in_order(&stage.problem, &stage.placed, frame),
                };
                stage.tested[job] += 1;
                if !test.passed_over() {
                    stage.placed.push(frame);
                    stage.tested.push(0);
                }
                return Some(test);
            }
            stage.tested.pop();
            if stage.placed.pop().is_none() {
                self.next_length();
            }
        }
        None
    }
}

/// How many tests the full search makes, if at most `most`.
pub fn within(cycle: &Cycle, most: u64) -> Option<u64> {
    let limit = usize::try_from(most).unwrap_or(usize::MAX);
    let count = Tests::of(cycle).take(limit.saturating_add(1)).count();
    (count <= limit).then_some(count as u64)
}
