//! One-off transfers to be asked for, and one round of comparison with them.

use crate::bus::Bus;
use crate::call::Call;
use crate::comparison::{Comparison, MOST_TRIES};
use crate::generate;
use crate::random::Random;
use crate::reference::cycle::Cycle;
use crate::reference::one_off::Asked;
use crate::reference::table::{decode, encode, Table};
use crate::reference::{planned, read_cycle, tries_within, Reference};

const ASKED_OF_A_PLAN: usize = 20;
const ASKED_OF_ANOTHER_TABLE: usize = 2;

/// What is asked is drawn about these: frame length, cycle, and what a row leaves for a transfer.
struct About {
    f: i64,
    h: i64,
    left: Vec<i64>,
}

/// What each row leaves, the transfer's own silent ticks taken off.
fn about_plan(cycle: &Cycle, table: &Table) -> About {
    let slot = |task: i64| {
        let known = cycle.request.tasks.get(task as usize);
        known.map_or(0, |task| cycle.request.slot(task))
    };
    let rows = table.rows.iter();
    let used = rows.map(|row| row.iter().map(|entry| slot(entry.task)).sum::<i64>());
    About {
        f: table.f.max(1),
        h: cycle.h,
        left: used
            .map(|ticks| table.f - ticks - cycle.request.g)
            .collect(),
    }
}

fn about(request: &[u8], table: &[u8]) -> About {
    match (read_cycle(request), decode(table)) {
        (Ok(cycle), Some(table)) => about_plan(&cycle, &table),
        _ => About {
            f: 5,
            h: 20,
            left: vec![3],
        },
    }
}

/// A tick: often about the edge of a frame or of a cycle, now and then far off.
fn tick(rng: &mut Random, about: &About) -> i64 {
    let (f, h) = (about.f, about.h);
    let edge = match rng.below(12) {
        0 => return 0,
        1 => 2 * h,
        2 => h,
        3 => return rng.pick(&[2 * h + 1, 65_536, i64::from(u32::MAX)]),
        4 | 5 => return rng.between(0, 2 * h),
        _ => f * rng.between(0, 2 * h / f),
    };
    (edge + rng.pick(&[0, 0, 0, 0, -1, 1])).max(0)
}

/// A length: often about what a row leaves, now and then 0 or so long that a sum with it may wrap.
fn length(rng: &mut Random, about: &About) -> i64 {
    match rng.below(12) {
        0 => 0,
        1 => i64::from(u32::MAX) - rng.between(0, 20),
        2 => about.f,
        3 => about.f + 1,
        4 | 5 => rng.between(1, about.f),
        _ => (rng.pick(&about.left) + rng.pick(&[0, 0, 0, 1, -1])).max(0),
    }
}

/// What may be asked of a table.
pub fn asked(rng: &mut Random, request: &[u8], table: &[u8]) -> Asked {
    let about = about(request, table);
    let (a, b) = (tick(rng, &about), tick(rng, &about));
    let (from, until) = match rng.below(10) {
        0 => (a, a),
        1 => (a.max(b), a.min(b)),
        2 | 3 => (a.min(b), 2 * about.h),
        _ => (a.min(b), a.max(b)),
    };
    Asked {
        length: length(rng, &about) as u32,
        from: from as u32,
        until: until as u32,
    }
}

/// The call that asks for it.
pub fn call(request: &[u8], table: &[u8], asked: Asked) -> Call {
    Call::one_off(request, table, asked.length, asked.from, asked.until)
}

/// One request, some tables, and some transfers asked of each.
pub fn round(comparison: &mut Comparison) -> Result<(), String> {
    let request = generate::request_bytes(&mut comparison.rng);
    if tries_within(&request, MOST_TRIES).is_none() {
        comparison.tally.left_out += 1;
        return Ok(());
    }
    comparison.tally.requests += 1;
    let chosen = planned(&request).ok();
    let mut pool = generate::table_pool(&mut comparison.rng, &request, chosen.as_ref(), MOST_TRIES);
    pool.extend(chosen.as_ref().map(encode));
    for table in &pool {
        let rows = decode(table).map_or(0, |table| table.rows.len());
        let count = match Reference.check(&request, table) {
            0 => ASKED_OF_A_PLAN,
            _ => ASKED_OF_ANOTHER_TABLE,
        };
        for _ in 0..count {
            let asked = asked(&mut comparison.rng, &request, table);
            let answer = comparison.same(&call(&request, table, asked))?.answer;
            comparison.tally.second_cycle += u64::from(answer >= 0 && answer as usize >= rows);
        }
    }
    Ok(())
}
