//! Lists of moves by hand, held against the words of a plan: all placings of small requests, reached
//! from each other, and long random walks.

use std::collections::{BTreeSet, VecDeque};

use crate::common::drafts::{moved, started, written};
use crate::common::subject;
use bus_tests::comparison::MOST_TRIES;
use bus_tests::generate;
use bus_tests::random::Random;
use bus_tests::reference::cycle::{Cycle, Job};
use bus_tests::reference::draft::{Draft, LIFTED};
use bus_tests::reference::model::{plausible_lengths, window};
use bus_tests::reference::table::{decode, encode, of_plan};
use bus_tests::reference::{check, read_cycle, tries_within};
use bus_tests::rounds::drafting::{some_move, Move};
use bus_tests::sheet::{self, request, silent_request};
use Move::{Lift, Put};

/// Whether the frames, none for a lifted job, keep window, capacity and order, in the words of a plan.
fn keeps_the_rules(cycle: &Cycle, f: i64, frames: &[Option<i64>]) -> bool {
    let (rows, jobs) = (cycle.h / f, &cycle.jobs);
    let placed = || {
        jobs.iter()
            .zip(frames)
            .filter_map(|(job, k)| k.map(|k| (job, k)))
    };
    let windows = placed().all(|(job, k)| k * f >= job.release && (k + 1) * f <= job.due);
    let row = |row: i64| {
        let there = placed().filter(move |(_, k)| k % rows == row);
        there.map(|(job, _)| job.slot).sum::<i64>()
    };
    let ordered = |one: &Job, two: &Job| {
        let pair = cycle.request.pairs.contains(&(one.task, two.task));
        pair && one.number == two.number
    };
    windows
        && (0..rows).all(|at| row(at) <= f)
        && placed().all(|(one, k)| placed().all(|(two, l)| !ordered(one, two) || k <= l))
}

/// All drafts of the frame length that keep the rules, with their loads, as bytes.
fn all_drafts(cycle: &Cycle, f: i64) -> BTreeSet<Vec<u8>> {
    let mut lists: Vec<Vec<Option<i64>>> = vec![vec![]];
    for job in &cycle.jobs {
        let places = window(job, f, cycle.h / f).into_iter().map(Some);
        let places: Vec<Option<i64>> = places.chain([None]).collect();
        let longer = |list: &Vec<Option<i64>>| {
            let list = list.clone();
            places.clone().into_iter().map(move |k| {
                let mut longer = list.clone();
                longer.push(k);
                longer
            })
        };
        lists = lists.iter().flat_map(longer).collect();
    }
    let kept = lists.iter().filter(|list| keeps_the_rules(cycle, f, list));
    kept.map(|list| {
        let mut made = Draft::unused(f as u16);
        for (place, k) in list.iter().enumerate() {
            made.frames[place] = k.map_or(LIFTED, |k| k as u16);
            if let Some(k) = k {
                made.loads[(k % (cycle.h / f)) as usize] += cycle.jobs[place].slot as u16;
            }
        }
        made.bytes()
    })
    .collect()
}

/// The table is accepted and describes the draft's frame length and frames.
fn describes(request: &[u8], cycle: &Cycle, draft: &Draft, table: &[u8]) {
    assert_eq!(subject().check(request, table), 0);
    let read = decode(table).expect("it was checked");
    assert_eq!(read.f, i64::from(draft.f));
    let frames = check::plan_in(cycle, &read).expect("it was checked");
    let held = draft.frames[..cycle.jobs.len()].iter();
    assert_eq!(frames, held.map(|k| i64::from(*k)).collect::<Vec<_>>());
}

/// All drafts that moves lead to from this one. Of every draft on the way every move is made, one job
/// and some frames more than there are; a move that is accepted can be taken back. A draft is written
/// exactly if no job is lifted.
fn reached(request: &[u8], cycle: &Cycle, first: Draft) -> BTreeSet<Vec<u8>> {
    let (bus, jobs) = (subject(), cycle.jobs.len());
    let last = 2 * cycle.h / i64::from(first.f) + 1;
    let frames: Vec<u16> = (0..=last as u16).chain([LIFTED]).collect();
    let mut found = BTreeSet::from([first.bytes()]);
    let mut waiting = VecDeque::from([first]);
    while let Some(now) = waiting.pop_front() {
        let up = now.frames[..jobs].contains(&LIFTED);
        match written(bus, request, &now, 519) {
            Ok(table) => describes(request, cycle, &now, &table),
            Err(number) => assert_eq!(number, 26),
        }
        assert_eq!(written(bus, request, &now, 519).is_ok(), !up);
        for job in 0..=jobs as u8 {
            let place = usize::from(job);
            let puts = frames.iter().map(|k| Put(job, *k));
            for step in puts.chain([Lift(job)]) {
                let (answer, after) = moved(bus, request, &now, step);
                if answer < 0 {
                    assert_eq!(after, now);
                    continue;
                }
                let back = match step {
                    Lift(job) => Put(job, now.frames[place]),
                    Put(job, _) => Lift(job),
                };
                assert_eq!(moved(bus, request, &after, back), (0, now.clone()));
                if found.insert(after.bytes()) {
                    waiting.push_back(after);
                }
            }
        }
    }
    found
}

/// Small requests: with pairs, carried jobs, silent ticks, windows that reach over the cycle's end.
fn small_requests() -> Vec<Vec<u8>> {
    let two = [(1, 6, 6, 0), (2, 6, 6, 0)];
    let three = [(1, 8, 8, 0), (2, 8, 8, 3), (1, 8, 8, 0)];
    vec![
        sheet::p1(),
        sheet::p7(),
        sheet::p8(),
        request(&two, &[]),
        request(&two, &[(0, 1)]),
        silent_request(&two, &[(0, 1)], 1),
        request(&three, &[]),
        request(&three, &[(0, 1), (0, 2)]),
        request(&three, &[(0, 2), (1, 2), (1, 2)]),
        silent_request(&three, &[(0, 1)], 1),
        request(&[(1, 4, 4, 1), (1, 4, 4, 3), (1, 8, 8, 5)], &[(0, 1)]),
        request(&[(1, 6, 5, 5), (1, 6, 6, 2), (1, 6, 6, 4)], &[(0, 2)]),
    ]
}

/// The plan's draft is started from its table.
fn starts_from_its_table(request: &[u8], cycle: &Cycle, plan: &Draft) {
    let frames: Vec<i64> = plan.placed(cycle).iter().map(|(_, k)| *k).collect();
    let table = encode(&of_plan(cycle, plan.f.into(), &frames));
    assert_eq!(started(subject(), request, &table).as_ref(), Ok(plan));
}

/// Every placing of a small request, with jobs lifted or not, is reached from every other of the same
/// frame length, and no draft else.
#[test]
fn every_placing_is_reached_from_every_other() {
    let (mut drafts, mut plans, mut lengths) = (0, 0, 0);
    for bytes in small_requests() {
        let cycle = read_cycle(&bytes).expect("it is valid");
        let before = lengths;
        for f in plausible_lengths(&cycle) {
            let all = all_drafts(&cycle, f);
            let full = all.iter().map(|bytes| Draft::read(bytes));
            let full = full.filter(|draft| !draft.frames.contains(&LIFTED));
            let full: Vec<Draft> = full.collect();
            for plan in &full {
                starts_from_its_table(&bytes, &cycle, plan);
            }
            if let Some(plan) = full.first() {
                assert_eq!(reached(&bytes, &cycle, plan.clone()), all, "{f}");
                drafts += all.len();
                plans += full.len();
                lengths += 1;
            }
        }
        assert!(lengths > before, "it has no plan");
    }
    assert_eq!((drafts, plans, lengths), (3_141, 594, 26));
}

const WALKS: u64 = if cfg!(feature = "linked") { 1_500 } else { 300 };
const MOVES: usize = 60;

/// A request with a plan and the plan's draft.
fn some_start(rng: &mut Random) -> Option<(Vec<u8>, Cycle, Draft)> {
    let bytes = generate::valid_bytes(rng);
    tries_within(&bytes, MOST_TRIES)?;
    let cycle = read_cycle(&bytes).ok()?;
    let table = encode(&generate::some_plan(rng, &cycle, MOST_TRIES)?);
    let draft = started(subject(), &bytes, &table).expect("it is a plan");
    Some((bytes, cycle, draft))
}

/// After every move of a long walk, refused ones among them, each load is its row's sum and no other
/// place has changed; 26 is given for nothing but the job; and a draft with no job lifted is written as
/// a table that the check accepts and that is exactly its frames.
#[test]
fn random_walks() {
    let mut rng = Random::new(86);
    let (mut walks, mut tables, mut refused, mut carried) = (0, 0, 0, 0);
    while walks < WALKS {
        let Some((bytes, cycle, mut now)) = some_start(&mut rng) else {
            continue;
        };
        walks += 1;
        let (jobs, rows) = (cycle.jobs.len(), cycle.h / i64::from(now.f));
        for _ in 0..MOVES {
            let step = some_move(&mut rng, &bytes, &now);
            let (answer, after) = moved(subject(), &bytes, &now, step);
            keeps_the_loads(&cycle, &after);
            touches_one_job_and_row(&now, step, answer, &after);
            assert_eq!(answer, right_answer(&cycle, &now, step), "{step:?}");
            let up = after.frames[..jobs].contains(&LIFTED);
            match written(subject(), &bytes, &after, 519) {
                Ok(table) if !up => describes(&bytes, &cycle, &after, &table),
                other => assert!(up && other == Err(26), "{other:?}"),
            }
            tables += u64::from(!up);
            refused += u64::from(answer < 0);
            carried += u64::from(answer == 0 && matches!(step, Put(_, k) if i64::from(k) >= rows));
            now = after;
        }
    }
    println!("{walks} walks, {tables} tables, {refused} refused, {carried} carried");
    assert!(tables > 2 * WALKS && refused > 2 * WALKS && carried > WALKS / 2);
}

/// "each stored load equals its row's sum"
fn keeps_the_loads(cycle: &Cycle, draft: &Draft) {
    let rows = (cycle.h / i64::from(draft.f)) as usize;
    let mut sums = vec![0; rows];
    for (job, k) in cycle.jobs.iter().zip(&draft.frames) {
        if *k != LIFTED {
            sums[usize::from(*k) % rows] += job.slot;
        }
    }
    let loads = draft.loads.iter().map(|load| i64::from(*load));
    sums.resize(256, 0);
    assert!(loads.eq(sums));
}

/// "either touches one job and one row", and a refused move none.
fn touches_one_job_and_row(before: &Draft, step: Move, answer: i32, after: &Draft) {
    let differ = |old: &[u16], new: &[u16]| -> Vec<usize> {
        let places = 0..old.len();
        places.filter(|place| old[*place] != new[*place]).collect()
    };
    let jobs = differ(&before.frames, &after.frames);
    let rows = differ(&before.loads, &after.loads);
    let (Lift(job) | Put(job, _)) = step;
    assert_eq!(before.f, after.f);
    if answer < 0 {
        assert!(jobs.is_empty() && rows.is_empty(), "{step:?}");
    } else {
        assert_eq!((jobs, rows.len()), (vec![usize::from(job)], 1), "{step:?}");
    }
}

/// What a move of a started draft answers, in the words of a plan.
fn right_answer(cycle: &Cycle, draft: &Draft, step: Move) -> i32 {
    let (Lift(job) | Put(job, _)) = step;
    let (job, f) = (usize::from(job), i64::from(draft.f));
    let placed = draft.frames[..cycle.jobs.len()].iter();
    let placed = placed.map(|k| (*k != LIFTED).then(|| i64::from(*k)));
    let mut frames: Vec<Option<i64>> = placed.collect();
    let lifted = frames.get(job).map(|k| k.is_none());
    match step {
        Lift(_) if lifted == Some(false) => 0,
        Put(_, k) if lifted == Some(true) => {
            let (k, named) = (i64::from(k), &cycle.jobs[job]);
            frames[job] = Some(k);
            if k * f < named.release || (k + 1) * f > named.due {
                -27
            } else if keeps_the_rules(cycle, f, &frames) {
                0
            } else {
                -28
            }
        }
        _ => -26,
    }
}
