//! Seeded one-off transfers asked of the subject and of the reference, flights that send them, and
//! tools that only look right when they are asked for one, which the comparison must catch.

use crate::common::{subject, tell_left_out};
use bus_tests::bus::{Bus, ENTRIES_LEN, STATE_LEN};
use bus_tests::comparison::{Seeded, Tally, MOST_TRIES};
use bus_tests::generate;
use bus_tests::random::Random;
use bus_tests::reference::cycle::Cycle;
use bus_tests::reference::one_off::{in_plan, Asked};
use bus_tests::reference::table::{decode, encode, Table};
use bus_tests::reference::{check, planned, read_cycle, tries_within, Reference};
use bus_tests::rounds::one_off::{self, asked};
use bus_tests::shams::Hunt;

const REQUESTS: u64 = if cfg!(feature = "linked") { 2_000 } else { 300 };

fn judge(tally: &Tally) {
    tally.judge_variety(&["one_off"], REQUESTS / 100);
    assert!(tally.count("one_off", 0) > tally.calls / 8, "few frames");
    let second = tally.second_cycle;
    assert!(second > tally.calls / 20, "few of the second cycle");
}

#[test]
fn every_answer_is_the_same() {
    let seeded = Seeded {
        round: one_off::round,
        seeds: &[61, 62, 63, 64],
        requests: REQUESTS,
    };
    let tally = seeded.compare(subject(), judge);
    tell_left_out(
        "one-off transfers",
        tally.requests,
        tally.left_out,
        MOST_TRIES,
    );
}

/// A request with a plan: its bytes, its cycle, a table and the frames of its jobs.
fn some_plan(rng: &mut Random) -> Option<(Vec<u8>, Cycle, Table, Vec<i64>)> {
    let bytes = generate::valid_bytes(rng);
    tries_within(&bytes, MOST_TRIES)?;
    let cycle = read_cycle(&bytes).ok()?;
    let table = generate::some_plan(rng, &cycle, MOST_TRIES).or(planned(&bytes).ok())?;
    let frames = check::plan_in(&cycle, &table).ok()?;
    Some((bytes, cycle, table, frames))
}

/// The tasks that the subject's dispatcher serves in a frame counted from time 0.
fn served(table: &[u8], frame: i32) -> Vec<usize> {
    let (mut state, mut entries) = (vec![0; STATE_LEN], vec![0; ENTRIES_LEN]);
    assert_eq!(subject().fresh(&mut state), 0);
    let mut count = 0;
    for _ in 0..=frame {
        count = subject().next_frame(table, &mut state, &mut entries);
    }
    let places = 0..count as usize;
    places
        .map(|place| usize::from(entries[2 * place]))
        .collect()
}

/// When a transfer may start that comes behind these in a frame: each takes a time from 0 to its C,
/// mostly all of it, and g ticks follow it.
fn behind(rng: &mut Random, cycle: &Cycle, tasks: &[usize], begin: i64) -> i64 {
    let mut now = begin;
    for task in tasks {
        let c = cycle.request.tasks[*task].c;
        now += if rng.chance(70) { c } else { rng.between(0, c) };
        now += cycle.request.g;
    }
    now
}

/// In flight the extra transfer comes last in the frame that was answered: it starts and ends in
/// time, and the line is silent again when the next frame begins.
#[test]
fn the_extra_transfer_ends_in_its_frame() {
    let mut rng = Random::new(65);
    let (mut sent, mut to_the_tick) = (0, 0);
    while sent < REQUESTS {
        let Some((request, cycle, table, _)) = some_plan(&mut rng) else {
            continue;
        };
        let (bytes, f, g) = (encode(&table), table.f, cycle.request.g);
        for _ in 0..8 {
            let asked = asked(&mut rng, &request, &bytes);
            let (length, from, until) = (asked.length, asked.from, asked.until);
            let frame = subject().one_off(&request, &bytes, length, from, until);
            if frame < 0 {
                continue;
            }
            sent += 1;
            let begin = i64::from(frame) * f;
            let start = behind(&mut rng, &cycle, &served(&bytes, frame), begin);
            let end = start + i64::from(length);
            assert!(start >= i64::from(from), "{asked:?}");
            assert!(end <= i64::from(until), "{asked:?}");
            assert!(end + g <= begin + f, "{asked:?}");
            to_the_tick += u64::from(end + g == begin + f);
        }
    }
    assert!(to_the_tick > REQUESTS / 10, "{to_the_tick}");
}

/// The reference beside the words, by the entries of the rows: each frame is tried, from 0.
#[test]
fn the_reference_itself() {
    let mut rng = Random::new(66);
    let (mut frames_found, mut none) = (0, 0);
    while frames_found < REQUESTS || none < REQUESTS / 4 {
        let Some((request, cycle, table, frames)) = some_plan(&mut rng) else {
            continue;
        };
        let asked = asked(&mut rng, &request, &encode(&table));
        let (f, rows, g) = (table.f, cycle.h / table.f, cycle.request.g);
        let fits = |k: &i64| {
            let row = &table.rows[(k % rows) as usize];
            let tasks = row
                .iter()
                .map(|entry| &cycle.request.tasks[entry.task as usize]);
            let used: i64 = tasks.map(|task| task.c + g).sum();
            k * f >= i64::from(asked.from)
                && (k + 1) * f <= i64::from(asked.until)
                && used + i64::from(asked.length) + g <= f
        };
        let bad =
            asked.length == 0 || asked.from > asked.until || i64::from(asked.until) > 2 * cycle.h;
        let expected = match (0..3 * rows).find(fits) {
            _ if bad => Err(21),
            Some(k) => Ok(k),
            None => Err(22),
        };
        assert_eq!(in_plan(&cycle, f, &frames, asked), expected, "{asked:?}");
        frames_found += u64::from(expected.is_ok());
        none += u64::from(expected == Err(22));
    }
}

bus_tests::shams! {
    CarriedFreeAtFirst,
    ForgetsSilenceAfterIt,
    ForgetsSilenceOfOthers,
    FirstCycleOnly,
    AnswersTheRow,
    TwentyTwoFirst,
    TakesTheLatest,
    TakesTheEmptiest,
    StartsWithinFrames,
    EndsWithinFrames,
    LeavesOneTick,
    FillsOneTickMore,
    TakesAnyEnd,
    RefusesEqualTicks,
    TakesLengthZero,
    LengthWraps,
    PassesEveryTable,
}

impl Sham {
    fn badly_asked(&self, h: i64, asked: Asked) -> bool {
        let zero = asked.length == 0 && self.0 != Lie::TakesLengthZero;
        let late = i64::from(asked.until) > 2 * h && self.0 != Lie::TakesAnyEnd;
        let equal = self.0 == Lie::RefusesEqualTicks && asked.from == asked.until;
        zero || late || equal || asked.from > asked.until
    }

    fn used(&self, cycle: &Cycle, rows: i64, frames: &[i64], k: i64) -> i64 {
        let carried_free = self.0 == Lie::CarriedFreeAtFirst && k < rows;
        let forgotten = match self.0 {
            Lie::ForgetsSilenceOfOthers => cycle.request.g,
            _ => 0,
        };
        let jobs = cycle.jobs.iter().zip(frames);
        jobs.filter(|(_, at)| **at % rows == k % rows && !(carried_free && **at >= rows))
            .map(|(job, _)| job.slot - forgotten)
            .sum()
    }

    fn needs(&self, g: i64, asked: Asked) -> i64 {
        let length = i64::from(asked.length);
        match self.0 {
            Lie::ForgetsSilenceAfterIt => length,
            Lie::LengthWraps => i64::from(asked.length.wrapping_add(g as u32)),
            Lie::LeavesOneTick => length + g + 1,
            Lie::FillsOneTickMore => length + g - 1,
            _ => length + g,
        }
    }

    /// The frames that fit.
    fn frames(&self, cycle: &Cycle, f: i64, plan: &[i64], asked: Asked) -> Vec<i64> {
        let rows = cycle.h / f;
        let most = match self.0 {
            Lie::FirstCycleOnly => rows,
            _ => 2 * rows,
        };
        let (from, until) = (i64::from(asked.from), i64::from(asked.until));
        let fits = |k: &i64| {
            let begun = match self.0 {
                Lie::StartsWithinFrames => (k + 1) * f > from,
                _ => k * f >= from,
            };
            let ended = match self.0 {
                Lie::EndsWithinFrames => k * f < until,
                _ => (k + 1) * f <= until,
            };
            let used = self.used(cycle, rows, plan, *k);
            begun && ended && used + self.needs(cycle.request.g, asked) <= f
        };
        (0..most).filter(fits).collect()
    }

    fn answer(&self, cycle: &Cycle, f: i64, plan: &[i64], asked: Asked) -> Result<i64, i32> {
        let rows = cycle.h / f;
        let frames = self.frames(cycle, f, plan, asked);
        if self.0 == Lie::TwentyTwoFirst && frames.is_empty() {
            return Err(22);
        }
        if self.badly_asked(cycle.h, asked) {
            return Err(21);
        }
        let chosen = match self.0 {
            Lie::TakesTheLatest => frames.last().copied(),
            Lie::TakesTheEmptiest => {
                let used = |k: &i64| self.used(cycle, rows, plan, *k);
                frames.iter().copied().min_by_key(used)
            }
            Lie::AnswersTheRow => frames.first().map(|k| k % rows),
            _ => frames.first().copied(),
        };
        chosen.ok_or(22)
    }
}

impl Bus for Sham {
    fn one_off(&self, request: &[u8], table: &[u8], length: u32, from: u32, until: u32) -> i32 {
        let number = Reference.check(request, table);
        let passes = self.0 == Lie::PassesEveryTable && number == -14;
        if number < 0 && !passes {
            return number;
        }
        let cycle = read_cycle(request).expect("it was checked");
        let read = decode(table).expect("it was checked");
        let plan = check::plan_in(&cycle, &read).unwrap_or_default();
        let asked = Asked {
            length,
            from,
            until,
        };
        match self.answer(&cycle, read.f, &plan, asked) {
            Ok(frame) => frame as i32,
            Err(number) => -number,
        }
    }
}

#[test]
fn every_lie_is_caught() {
    let hunt = Hunt {
        round: one_off::round,
        seed: 67,
        requests: 2_000,
    };
    hunt.catches(17, Sham);
}
