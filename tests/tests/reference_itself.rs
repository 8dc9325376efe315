//! The reference judged by itself: backtracking beside the list of all plans, tables read back.

use crate::common::tell_cut;
use bus_tests::bus::Bus;
use bus_tests::call::hex;
use bus_tests::comparison::MOST_TRIES;
use bus_tests::generate;
use bus_tests::plain;
use bus_tests::random::Random;
use bus_tests::reference::check::plan_in;
use bus_tests::reference::cycle::{Cycle, Job};
use bus_tests::reference::model::{is_plan, plausible, plausible_lengths, window};
use bus_tests::reference::search::{
    all_plans, choose, placings_within, plan_of_length, Choice, Direction, Effort, Found,
};
use bus_tests::reference::table::{decode, encode, of_plan};
use bus_tests::reference::tries::{within, Tests};
use bus_tests::reference::{planned, planned_within, read_cycle, tries_within, Reference};
use bus_tests::rounds::planning::allowances;

fn random_cycles(seed: u64, count: usize) -> Vec<Cycle> {
    let mut rng = Random::new(seed);
    let mut cycles = Vec::new();
    while cycles.len() < count {
        let bytes = generate::valid_bytes(&mut rng);
        cycles.extend(read_cycle(&bytes).ok());
    }
    cycles
}

/// For every frame length of small requests the search gives the first of all plans.
#[test]
fn backtracking_finds_the_first_of_all_plans() {
    let (mut with, mut without) = (0, 0);
    for cycle in random_cycles(11, 3_000) {
        for f in plausible_lengths(&cycle) {
            if placings_within(&cycle, f, 3_000).is_none() {
                continue;
            }
            let mut plans = all_plans(&cycle, f);
            plans.sort();
            let mut effort = Effort::unlimited();
            let found = plan_of_length(&cycle, f, Direction::EarliestFirst, &mut effort);
            let mut effort = Effort::unlimited();
            let last = plan_of_length(&cycle, f, Direction::LatestFirst, &mut effort);
            match plans.first() {
                Some(first) => {
                    assert_eq!(found, Found::Plan(first.clone()));
                    assert_eq!(last, Found::Plan(plans.last().unwrap().clone()));
                    with += 1;
                }
                None => {
                    assert_eq!((found, last), (Found::NoPlan, Found::NoPlan));
                    without += 1;
                }
            }
        }
    }
    assert!(
        with > 500 && without > 500,
        "{with} with, {without} without"
    );
}

/// Frame lengths that are not plausible have no plan, though they divide H.
#[test]
fn plausible_is_necessary() {
    let mut seen = 0;
    for cycle in random_cycles(12, 800) {
        for f in (1..=cycle.h).filter(|f| cycle.h % f == 0 && cycle.h / f <= 256) {
            if plausible(&cycle, f) || placings_within(&cycle, f, 2_000).is_none() {
                continue;
            }
            seen += 1;
            assert!(all_plans(&cycle, f).is_empty());
        }
    }
    assert!(seen > 500, "{seen}");
}

/// No window holds a frame from 2F up, nor both k and k + F.
#[test]
fn windows_are_shorter_than_a_cycle() {
    for cycle in random_cycles(13, 500) {
        for f in (1..=cycle.h).filter(|f| cycle.h % f == 0 && cycle.h / f <= 256) {
            let rows = cycle.h / f;
            for job in &cycle.jobs {
                let frames = window(job, f, 2 * rows);
                assert!(frames.iter().all(|k| *k < 2 * rows));
                assert!(!frames.iter().any(|k| frames.contains(&(k + rows))));
            }
        }
    }
}

/// Whether frames of the first jobs keep capacity and order.
fn stand(cycle: &Cycle, f: i64, frames: &[i64]) -> bool {
    let rows = cycle.h / f;
    let placed: Vec<(&Job, &i64)> = cycle.jobs.iter().zip(frames).collect();
    let load = |row: i64| -> i64 {
        let in_row = placed.iter().filter(|(_, k)| **k % rows == row);
        in_row.map(|(job, _)| job.slot).sum()
    };
    let in_order = |(first, j): (&Job, &i64), (second, k): (&Job, &i64)| {
        let pair = (first.task, second.task);
        first.number != second.number || !cycle.request.pairs.contains(&pair) || j <= k
    };
    (0..rows).all(|row| load(row) <= f)
        && placed
            .iter()
            .all(|one| placed.iter().all(|other| in_order(*one, *other)))
}

/// The tries of one length, without a search: frames of the first jobs in their windows are tested
/// exactly if those before the last of them stand and the first plan does not come before them.
fn tries_of_length(cycle: &Cycle, f: i64) -> u64 {
    let first_plan = all_plans(cycle, f).into_iter().min();
    let mut standing: Vec<Vec<i64>> = vec![Vec::new()];
    let mut tries = 0;
    for (i, job) in cycle.jobs.iter().enumerate() {
        let frames = window(job, f, cycle.h / f);
        let mut tested = Vec::new();
        for before in &standing {
            tested.extend(frames.iter().map(|k| [&before[..], &[*k]].concat()));
        }
        if let Some(plan) = &first_plan {
            tested.retain(|frames| frames[..] <= plan[..=i]);
        }
        tries += tested.len() as u64;
        tested.retain(|frames| stand(cycle, f, frames));
        standing = tested;
    }
    tries
}

/// The tests that are counted one by one are as many as there are by that rule, over all lengths up
/// to the first with a plan.
#[test]
fn tries_are_those_of_the_rule() {
    let (mut with, mut without, mut most_lengths) = (0, 0, 0);
    for cycle in random_cycles(16, 3_000) {
        let lengths = plausible_lengths(&cycle);
        let mut few = lengths.iter();
        if !few.all(|f| placings_within(&cycle, *f, 1_000).is_some()) {
            continue;
        }
        let has_plan = |f: &i64| !all_plans(&cycle, *f).is_empty();
        let searched = match lengths.iter().position(has_plan) {
            Some(last) => &lengths[..=last],
            None => &lengths[..],
        };
        let expected: u64 = searched.iter().map(|f| tries_of_length(&cycle, *f)).sum();
        assert_eq!(within(&cycle, expected), Some(expected));
        if expected > 0 {
            assert_eq!(within(&cycle, expected - 1), None);
        }
        with += u64::from(searched.last().is_some_and(has_plan));
        without += u64::from(!searched.last().is_some_and(has_plan));
        most_lengths = most_lengths.max(searched.len());
    }
    assert!(
        with > 300 && without > 300 && most_lengths > 3,
        "{with} with, {without} without, up to {most_lengths} lengths"
    );
}

/// The search that calls itself counts the same tries as the list of tests, and that list has the
/// plan's frames as the last ones that were not passed over.
#[test]
fn the_search_makes_the_tests_that_are_listed() {
    let mut plans = 0;
    for cycle in random_cycles(17, 2_000) {
        let mut effort = Effort::up_to(MOST_TRIES);
        let chosen = choose(&cycle, &mut effort);
        let expected = (chosen != Choice::TooHard).then_some(effort.tries);
        assert_eq!(within(&cycle, MOST_TRIES), expected);
        let Choice::Plan { f, frames } = chosen else {
            continue;
        };
        plans += 1;
        let mut placed = vec![-1; cycle.jobs.len()];
        for test in Tests::of(&cycle).filter(|test| !test.passed_over() && test.f == f) {
            placed[test.job] = test.frame;
        }
        assert_eq!(placed, frames);
    }
    assert!(plans > 500, "{plans}");
}

/// With more tries allowed a table, 9 and 10 stay as they are, and 23 is answered exactly below the
/// tries of the full search.
#[test]
fn a_larger_allowance_changes_no_answer() {
    let mut rng = Random::new(18);
    let mut seen = 0;
    while seen < 500 {
        let bytes = generate::request_bytes(&mut rng);
        let Some(full) = tries_within(&bytes, 300) else {
            continue;
        };
        seen += 1;
        let last = planned_within(&bytes, u64::MAX);
        for allowance in 0..=full + 1 {
            let expected = if allowance < full {
                (Err(23), allowance)
            } else {
                last.clone()
            };
            assert_eq!(planned_within(&bytes, allowance), expected);
        }
    }
}

/// A plan's table reads back as the plan, and its bytes as the table.
#[test]
fn tables_read_back() {
    let mut seen = 0;
    for cycle in random_cycles(14, 1_500) {
        let Choice::Plan { f, frames } = choose(&cycle, &mut Effort::up_to(MOST_TRIES)) else {
            continue;
        };
        seen += 1;
        assert!(is_plan(&cycle, f, &frames));
        let table = of_plan(&cycle, f, &frames);
        let bytes = encode(&table);
        assert_eq!(
            bytes.len() as i64,
            7 + cycle.h / f + 2 * cycle.jobs.len() as i64
        );
        assert_eq!(decode(&bytes), Some(table.clone()));
        assert_eq!(plan_in(&cycle, &table), Ok(frames));
    }
    assert!(seen > 400, "{seen}");
}

/// The plain version that is measured plans the same tables with the same tries, and its check
/// answers alike.
#[test]
fn the_plain_version_agrees() {
    let mut rng = Random::new(15);
    let (mut seen, mut cut) = (0, 0);
    while seen < 2_000 {
        let bytes = generate::request_bytes(&mut rng);
        let tries = tries_within(&bytes, MOST_TRIES);
        for allowance in tries.map_or(vec![0, 1, MOST_TRIES], allowances) {
            let (mut out, mut count) = ([0x5A; 600], [0x5A; 9]);
            let (mut other, mut other_count) = (out, count);
            let answer = Reference.plan(&bytes, allowance, &mut out, &mut count);
            let plainly = plain::plan(&bytes, allowance, &mut other, &mut other_count);
            assert_eq!((plainly, other, other_count), (answer, out, count));
        }
        assert_eq!(plain::tries_within(&bytes, MOST_TRIES), tries);
        if tries.is_none() {
            cut += 1;
            continue;
        }
        seen += 1;
        let chosen = planned(&bytes);
        for table in generate::table_pool(&mut rng, &bytes, chosen.as_ref().ok(), MOST_TRIES) {
            let answer = Reference.check(&bytes, &table);
            assert_eq!(plain::check(&bytes, &table), answer, "{}", hex(&table));
        }
    }
    tell_cut("plain version", seen, cut, MOST_TRIES);
}
