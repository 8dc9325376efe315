//! Requests with long searches. Each is drawn from a kind and a seed; of each kind the first three
//! seeds from 1 are taken whose search makes 1 to 49 million tries, and no other choice is made.
//!
//! In every kind but the last one task leaves a single frame length plausible. Some more are made by
//! hand.

use crate::plain::{effort_within, Effort};
use crate::random::Random;
use crate::sheet::{pigeons, request, Short};

const LEAST_TRIES: u64 = 1_000_000;
const MOST_TRIES: u64 = 49_000_000;
const SEEDS_OF_A_KIND: usize = 3;

pub struct Hard {
    pub name: String,
    pub request: Vec<u8>,
    pub effort: Effort,
}

type Kind = fn(&mut Random) -> Vec<u8>;

const KINDS: [(&str, Kind); 4] = [
    ("packed", packed),
    ("wide", wide),
    ("wide, paired", paired),
    ("periodic", periodic),
];

/// A job of one tick in each frame, and up to 15 jobs with the whole cycle for a window, which
/// together ask for nearly all ticks or a few more.
pub(crate) fn packed(rng: &mut Random) -> Vec<u8> {
    let f = rng.pick(&[47, 53, 59, 61]);
    let rows = rng.between(5, 9);
    let h = f * rows;
    let mut tasks: Vec<Short> = vec![(1, f, f, 0)];
    let mut left = rows * (f - 1) + rng.between(-6, 3);
    while tasks.len() < 16 && left > 0 {
        let c = rng.between(f / 5, f / 2).min(left);
        tasks.push((c, h, h, 0));
        left -= c;
    }
    request(&tasks, &[])
}

/// Three tasks fill seven of eight frames. The others have one job each, released in the last
/// quarter of the cycle, with a window of a third of the cycle to all of it: they pass over the
/// full frames, mostly of the next cycle, and compete for those that are left.
fn wide_tasks(rng: &mut Random) -> Vec<Short> {
    let f = 13;
    let rows = rng.pick(&[64, 96, 128]);
    let mut tasks = vec![(f, 2 * f, f, 0), (f, 4 * f, f, f), (f, 8 * f, f, 3 * f)];
    for _ in 0..rng.between(7, 13) {
        let first = rng.between(rows * 3 / 4, rows - 1);
        let width = rng.between(rows / 3, rows);
        let c = rng.between(4, f);
        tasks.push((c, rows * f, width * f, first * f));
    }
    tasks
}

pub(crate) fn wide(rng: &mut Random) -> Vec<u8> {
    request(&wide_tasks(rng), &[])
}

/// The same with 4 to 16 pairs among the tasks of one job, so that bounds rule frames out too.
pub(crate) fn paired(rng: &mut Random) -> Vec<u8> {
    let tasks = wide_tasks(rng);
    let mut pairs = Vec::new();
    for _ in 0..rng.between(4, 16) {
        let b = 4 + rng.below(tasks.len() - 4);
        let a = 3 + rng.below(b - 3);
        pairs.push((a, b));
    }
    request(&tasks, &pairs)
}

/// A job in each of 24 frames, and tasks of many periods, any phase and windows from two frames to
/// the period, which together ask for nearly all ticks or a few more.
pub(crate) fn periodic(rng: &mut Random) -> Vec<u8> {
    let f = rng.pick(&[11, 13, 17]);
    let in_each = rng.between(1, f / 2);
    let mut tasks: Vec<Short> = vec![(in_each, f, f, 0)];
    let mut left = (f - in_each) * 24 + rng.between(-12, 6);
    while tasks.len() < 16 && left > 0 {
        let jobs = rng.pick(&[1, 2, 3, 4, 6, 8]);
        let t = f * 24 / jobs;
        let c = rng.between(2, f - 1).min((left / jobs).max(1));
        let d = rng.between(2 * f, t);
        tasks.push((c, t, d, rng.between(0, t - 1)));
        left -= c * jobs;
    }
    request(&tasks, &[])
}

/// The request of the kind and the seed, if its search is as long as is asked.
fn drawn(name: &str, kind: Kind, seed: u64) -> Option<Hard> {
    let request = kind(&mut Random::new(seed));
    let effort = effort_within(&request, MOST_TRIES)?;
    (effort.tries >= LEAST_TRIES).then(|| Hard {
        name: format!("{name}, seed {seed}"),
        request,
        effort,
    })
}

/// Three requests of each kind.
pub fn requests() -> Vec<Hard> {
    let mut found = Vec::new();
    for (name, kind) in KINDS {
        let seeds = (1..).filter_map(|seed| drawn(name, kind, seed));
        found.extend(seeds.take(SEEDS_OF_A_KIND));
    }
    found
}

/// 128 jobs and 16 pairs in 64 rows: 118 jobs fill the even frames, and 10 jobs, in pairs and
/// with windows across the end of the cycle, want the odd frames of their window.
pub fn paired_pigeons(holes: i64) -> Vec<u8> {
    let h = 64 * 13;
    let mut tasks: Vec<Short> = vec![
        (3, 26, 13, 0),
        (3, 26, 13, 0),
        (3, 26, 13, 0),
        (2, 52, 13, 0),
        (1, 208, 13, 0),
        (1, 416, 13, 0),
    ];
    tasks.extend([(13, h, 2 * holes * 13, 54 * 13); 10]);
    let mut pairs = vec![(0, 1), (1, 2), (0, 2), (0, 1), (1, 2), (0, 2)];
    pairs.extend([(6, 7), (7, 8), (8, 9), (10, 11), (11, 12), (12, 13)]);
    pairs.extend([(14, 15), (6, 8), (7, 9), (10, 13)]);
    request(&tasks, &pairs)
}

/// Of those by hand the one with the longest search.
pub const LONGEST: &str = "11 jobs for 10 frames";

/// Requests by hand, with their names.
pub fn by_hand() -> Vec<(&'static str, Vec<u8>)> {
    vec![
        ("10 jobs for 9 frames", pigeons(10, 9, 0)),
        ("10 jobs for 9 frames, g 4", pigeons(10, 9, 4)),
        (LONGEST, pigeons(11, 10, 0)),
        ("16 pairs, 128 jobs", paired_pigeons(10)),
        ("16 pairs, 128 jobs, no plan", paired_pigeons(9)),
    ]
}
