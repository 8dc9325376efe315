//! Many calls, made one after the other from a seed: what they are, each judged, and a tally of their
//! answers.

use std::collections::BTreeMap;
use std::thread;

use crate::bus::{Bus, ROWS};
use crate::call::{Call, Outcome};
use crate::compare::compare;
use crate::random::Random;

/// Requests that need more tries than this are planned with no more allowed: both sides would take
/// too long.
pub const MOST_TRIES: u64 = 30_000;

/// How often each call gave each answer (answers from 0 up count as 0).
#[derive(Clone, Debug, Default)]
pub struct Tally {
    counts: BTreeMap<(&'static str, i32), u64>,
    pub requests: u64,
    pub left_out: u64,
    pub calls: u64,
    /// Frames answered that are of the second cycle.
    pub second_cycle: u64,
}

impl Tally {
    pub fn count(&self, name: &'static str, answer: i32) -> u64 {
        self.counts.get(&(name, answer)).copied().unwrap_or(0)
    }

    fn note(&mut self, call: &Call, outcome: &Outcome) {
        self.calls += 1;
        let answer = outcome.answer.min(0);
        *self.counts.entry((call.row.name, answer)).or_default() += 1;
    }

    fn add(&mut self, other: &Tally) {
        for (answer, count) in &other.counts {
            *self.counts.entry(*answer).or_default() += count;
        }
        self.requests += other.requests;
        self.left_out += other.left_out;
        self.calls += other.calls;
        self.second_cycle += other.second_cycle;
    }

    /// Every number that these calls can give was given at least so often, and an answer too.
    pub fn judge_variety(&self, names: &[&'static str], least: u64) {
        for row in ROWS.iter().filter(|row| names.contains(&row.name)) {
            for number in [0].iter().chain(row.refusals) {
                let (name, count) = (row.name, self.count(row.name, -number));
                assert!(count >= least, "{name} gave {number} only {count} times");
            }
        }
    }

    /// One line for each call: its answers and how often each was given.
    pub fn summary(&self) -> String {
        let mut text = format!(
            "{} requests, {} more with a search too long for its end, {} calls\n",
            self.requests, self.left_out, self.calls
        );
        for row in ROWS {
            text.push_str(&format!("{:12}", row.name));
            for ((called, answer), count) in self.counts.iter().rev() {
                if *called == row.name {
                    text.push_str(&format!("  {answer}: {count}"));
                }
            }
            text.push('\n');
        }
        text
    }
}

/// What is done with each call: its outcome, or a description of a fault.
pub type Judge<'a> = Box<dyn FnMut(&Call) -> Result<Outcome, String> + 'a>;

/// One round: a request or two, and the calls that can be made about them.
pub type Round = fn(&mut Comparison) -> Result<(), String>;

/// The judge, the random numbers and the tally of a comparison.
pub struct Comparison<'a> {
    judge: Judge<'a>,
    pub rng: Random,
    pub tally: Tally,
}

impl<'a> Comparison<'a> {
    pub fn judged_by(judge: Judge<'a>, seed: u64) -> Comparison<'a> {
        Comparison {
            judge,
            rng: Random::new(seed),
            tally: Tally::default(),
        }
    }

    /// Each call is compared with the reference.
    pub fn new(subject: &'a dyn Bus, seed: u64) -> Comparison<'a> {
        Comparison::judged_by(Box::new(move |call| compare(subject, call)), seed)
    }

    pub fn same(&mut self, call: &Call) -> Result<Outcome, String> {
        let outcome = (self.judge)(call)?;
        self.tally.note(call, &outcome);
        Ok(outcome)
    }

    /// Rounds until there were so many requests.
    pub fn rounds(&mut self, round: Round, requests: u64) -> Result<(), String> {
        while self.tally.requests < requests {
            round(self)?;
        }
        Ok(())
    }

    pub fn buffer(&mut self, length: usize) -> Vec<u8> {
        self.rng.bytes(length)
    }

    /// Lengths about the length of what is written: short by one, just so, longer, and any.
    pub fn rooms(&mut self, length: usize) -> Vec<usize> {
        let longer = length + 1 + self.rng.below(60);
        let any = self.rng.below(600);
        vec![length.saturating_sub(1), length, longer, any]
    }
}

/// So many requests of one kind of round, from each of some seeds.
#[derive(Clone, Copy)]
pub struct Seeded<'a> {
    pub round: Round,
    pub seeds: &'a [u64],
    pub requests: u64,
}

impl Seeded<'_> {
    fn of_seed(&self, subject: &dyn Bus, seed: u64, judge: fn(&Tally)) -> Tally {
        let mut comparison = Comparison::new(subject, seed);
        let done = comparison.rounds(self.round, self.requests);
        let tally = comparison.tally;
        println!("seed {seed}: {}", tally.summary());
        if let Err(fault) = done {
            panic!("seed {seed}, request {}: {fault}", tally.requests);
        }
        judge(&tally);
        tally
    }

    /// Every answer and byte is the same, and the judge is content with each seed's tally. All tallies
    /// together.
    pub fn compare(&self, subject: &dyn Bus, judge: fn(&Tally)) -> Tally {
        let mut whole = Tally::default();
        thread::scope(|scope| {
            let of_seed = |seed: &u64| {
                let seed = *seed;
                scope.spawn(move || self.of_seed(subject, seed, judge))
            };
            let running: Vec<_> = self.seeds.iter().map(of_seed).collect();
            for seed in running {
                whole.add(&seed.join().expect("no fault"));
            }
        });
        whole
    }
}
