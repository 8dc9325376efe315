//! Seeded requests decided by the subject and by the reference, and tools that only look right when
//! they decide, which the comparison must catch.

use crate::common::{subject, tell};
use bus_tests::bus::Bus;
use bus_tests::comparison::{Seeded, Tally, MOST_TRIES};
use bus_tests::reference::cycle::{self, Cycle};
use bus_tests::reference::model::plausible_lengths;
use bus_tests::reference::request::read;
use bus_tests::reference::search::{plan_of_length, Direction, Effort, Found};
use bus_tests::reference::table::{encode, of_plan, Table};
use bus_tests::reference::{exact, read_cycle, tries};
use bus_tests::rounds::deciding;
use bus_tests::shams::Hunt;

const REQUESTS: u64 = if cfg!(feature = "linked") { 2_000 } else { 400 };

fn judge(tally: &Tally) {
    tally.judge_variety(&["decide"], REQUESTS / 200);
    assert!(tally.count("decide", 0) > tally.calls / 8, "few tables");
}

#[test]
fn every_decision_is_the_same() {
    let seeded = Seeded {
        round: deciding::round,
        seeds: &[331, 332, 333, 334],
        requests: REQUESTS,
    };
    let tally = seeded.compare(subject(), judge);
    tell(format!("decided: {} requests\n", tally.requests));
}

bus_tests::shams! {
    LeavesLongSearchesOpen,
    TenForLongSearches,
    TenWhereAJobIsCarried,
    NeverCarries,
    CarriesWhereItCan,
    ForgetsPairs,
    ForgetsTheLastPair,
    TurnsPairsRound,
    PairsOfCarriedJobsAreFree,
    ForgetsSilentTicks,
    SilenceInLengthsOnly,
    OneTickMoreInARow,
    OneTickLessInARow,
    WindowsOneTickLonger,
    LatestFrames,
    LastJobsFirst,
    SmallestLengthFirst,
    LargestLengthOnly,
    NineForTen,
    TenForNine,
    TenForAll,
    ElevenForTen,
    ElevenBeforeTen,
    AsksForOneByteMore,
    WritesWhatFits,
    ClearsTheBuffer,
    ClearsTheRestOfTheBuffer,
    AnswersZero,
    TakesBytesBehind,
    EightBeforeSeven,
}

/// Of the plans of this length the first when the frames are tried from the latest, if it is soon found.
fn latest(cycle: &Cycle, f: i64) -> Option<Vec<i64>> {
    let mut effort = Effort::up_to(MOST_TRIES);
    match plan_of_length(cycle, f, Direction::LatestFirst, &mut effort) {
        Found::Plan(frames) => Some(frames),
        Found::NoPlan => None,
        Found::TooHard => exact::plan_of_length(cycle, f),
    }
}

/// The first plan where the jobs are asked from the last to the first.
fn by_last_jobs(cycle: &Cycle, f: i64) -> Option<Vec<i64>> {
    let mut turned = cycle.clone();
    turned.jobs.reverse();
    let mut frames = exact::plan_of_length(&turned, f)?;
    frames.reverse();
    Some(frames)
}

impl Sham {
    /// The cycle in which the lie looks for a plan.
    fn cycle(&self, bytes: &[u8]) -> Result<Cycle, i32> {
        let mut cycle = read_cycle(bytes)?;
        let h = cycle.h;
        let pairs = &mut cycle.request.pairs;
        match self.0 {
            Lie::ForgetsPairs => pairs.clear(),
            Lie::ForgetsTheLastPair => drop(pairs.pop()),
            Lie::TurnsPairsRound => pairs.iter_mut().for_each(|(a, b)| (*a, *b) = (*b, *a)),
            Lie::PairsOfCarriedJobsAreFree if cycle.jobs.iter().any(|job| job.due > h) => {
                pairs.clear();
            }
            Lie::ForgetsSilentTicks => {
                let mut request = cycle.request.clone();
                request.g = 0;
                return cycle::of(request);
            }
            Lie::SilenceInLengthsOnly => {
                let g = cycle.request.g;
                cycle.jobs.iter_mut().for_each(|job| job.slot -= g);
            }
            Lie::OneTickMoreInARow => {
                let shorter = |job: &mut cycle::Job| job.slot = (job.slot - 1).max(1);
                cycle.jobs.first_mut().map(shorter);
            }
            Lie::OneTickLessInARow => {
                cycle.jobs.iter_mut().for_each(|job| job.slot += 1);
            }
            Lie::WindowsOneTickLonger => cycle.jobs.iter_mut().for_each(|job| job.due += 1),
            Lie::NeverCarries => {
                let jobs = cycle.jobs.iter_mut();
                jobs.for_each(|job| job.due = job.due.min(h));
            }
            Lie::CarriesWhereItCan => {
                let jobs = cycle.jobs.iter_mut().filter(|job| job.due > h);
                jobs.for_each(|job| job.release = h);
            }
            _ => {}
        }
        Ok(cycle)
    }

    fn plan(&self, cycle: &Cycle, f: i64) -> Option<Vec<i64>> {
        match self.0 {
            Lie::LatestFrames => latest(cycle, f),
            Lie::LastJobsFirst => by_last_jobs(cycle, f),
            _ => exact::plan_of_length(cycle, f),
        }
    }

    /// The table that the lie chooses, or its number.
    fn table(&self, bytes: &[u8]) -> Result<Table, i32> {
        let honest = read_cycle(bytes)?;
        let mut lengths = plausible_lengths(&honest);
        let is_long = || tries::within(&honest, MOST_TRIES).is_none();
        match self.0 {
            Lie::TenForAll => return Err(10),
            Lie::LeavesLongSearchesOpen if is_long() => return Err(23),
            Lie::TenForLongSearches if is_long() => return Err(10),
            Lie::SmallestLengthFirst => lengths.reverse(),
            Lie::LargestLengthOnly => lengths.truncate(1),
            _ => {}
        }
        let cycle = self.cycle(bytes)?;
        let none = match self.0 {
            Lie::NineForTen => 9,
            Lie::TenForNine => 10,
            Lie::ElevenForTen if !lengths.is_empty() => 11,
            _ if lengths.is_empty() => 9,
            _ => 10,
        };
        let plan = |f: &i64| {
            self.plan(&cycle, *f)
                .map(|frames| of_plan(&honest, *f, &frames))
        };
        let table = lengths.iter().find_map(plan).ok_or(none)?;
        let carried = table.rows.iter().flatten().any(|entry| entry.carry);
        if self.0 == Lie::TenWhereAJobIsCarried && carried {
            return Err(10);
        }
        Ok(table)
    }

    /// The bytes as the lie reads them.
    fn bytes<'a>(&self, bytes: &'a [u8]) -> &'a [u8] {
        let readable = |end: &usize| read(&bytes[..*end]).is_ok();
        match (0..bytes.len()).rev().find(readable) {
            Some(end) if self.0 == Lie::TakesBytesBehind && read(bytes) == Err(6) => &bytes[..end],
            _ => bytes,
        }
    }
}

impl Bus for Sham {
    fn decide(&self, request: &[u8], out: &mut [u8]) -> i32 {
        let table = self.table(self.bytes(request)).map(|table| encode(&table));
        let bytes = match table {
            Ok(bytes) => bytes,
            Err(7) if self.0 == Lie::EightBeforeSeven => return -8,
            Err(10) if self.0 == Lie::ElevenBeforeTen && out.len() < 7 => return -11,
            Err(number) => return -number,
        };
        let length = bytes.len();
        if self.0 == Lie::ClearsTheBuffer {
            out.fill(0);
        }
        if out.len() < length + usize::from(self.0 == Lie::AsksForOneByteMore) {
            if self.0 == Lie::WritesWhatFits {
                out.copy_from_slice(&bytes[..out.len()]);
            }
            return -11;
        }
        out[..length].copy_from_slice(&bytes);
        if self.0 == Lie::ClearsTheRestOfTheBuffer {
            out[length..].fill(0);
        }
        match self.0 {
            Lie::AnswersZero => 0,
            _ => length as i32,
        }
    }
}

#[test]
fn the_comparison_catches_every_sham() {
    let hunt = Hunt {
        round: deciding::round,
        seed: 335,
        requests: 4_000,
    };
    hunt.catches(30, Sham);
}
