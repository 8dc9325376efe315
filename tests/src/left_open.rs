//! Requests that the tries of the programs leave open: they are refused with 23, and whether there is
//! a plan is not known from them. Each is drawn from a kind and a seed.

use std::fs;

use crate::answers::from_hex;
use crate::hard;
use crate::plain::tries_within;
use crate::random::Random;
use crate::reference::request::{read, write};
use crate::reference::PROGRAM_TRIES;
use crate::sheet::{request, silent_request, Short};

pub type Kind = fn(&mut Random) -> Vec<u8>;

pub const KINDS: [Kind; 10] = [
    hard::packed,
    hard::wide,
    hard::paired,
    hard::periodic,
    silent,
    in_pairs,
    full,
    few_rows,
    crowded,
    wide_and_silent,
];

/// The same with silent ticks, each transfer shorter by as many where it can be.
fn with_silence(rng: &mut Random, bytes: &[u8]) -> Vec<u8> {
    let mut request = read(bytes).expect("it can be read");
    request.g = rng.between(1, 3);
    for task in &mut request.tasks {
        task.c = (task.c - request.g).max(1);
    }
    write(&request)
}

fn silent(rng: &mut Random) -> Vec<u8> {
    let bytes = hard::periodic(rng);
    with_silence(rng, &bytes)
}

fn wide_and_silent(rng: &mut Random) -> Vec<u8> {
    let bytes = hard::paired(rng);
    with_silence(rng, &bytes)
}

/// Tasks of three periods, many in pairs, which together ask for nearly all ticks or a few more.
fn in_pairs(rng: &mut Random) -> Vec<u8> {
    let (f, rows) = (rng.pick(&[20, 24, 30]), rng.pick(&[12, 16, 24]));
    let h = f * rows;
    let mut tasks: Vec<Short> = vec![(1, f, f, 0)];
    let mut left = (f - 1) * rows + rng.between(-f, f / 2);
    while tasks.len() < 16 && left > 0 {
        let jobs = rng.pick(&[1, 1, 2, 4]);
        let t = h / jobs;
        let c = rng.between(f / 4, f * 3 / 4).min((left / jobs).max(1));
        let p = rng.pick(&[0, 0, t / 2, t / 3]);
        tasks.push((c, t, rng.between(t / 2, t), p));
        left -= c * jobs;
    }
    let mut pairs = Vec::new();
    for b in 1..tasks.len() {
        for a in 1..b {
            if tasks[a].1 == tasks[b].1 && pairs.len() < 16 && rng.chance(25) {
                pairs.push((a, b));
            }
        }
    }
    request(&tasks, &pairs)
}

/// Four or five rows for three transfers each, which fill them with the one in every row; one of them
/// is then made longer or shorter by a tick or two, or left as it is.
fn full(rng: &mut Random) -> Vec<u8> {
    let f = rng.pick(&[60, 90, 100]);
    let rows = rng.between(4, 5);
    let in_each = f / 10;
    let mut costs = Vec::new();
    for _ in 0..rows {
        let third = (f - in_each) / 3;
        let one = third + rng.between(-f / 12, f / 12);
        let other = third + rng.between(-f / 12, f / 12);
        costs.extend([one, other, f - in_each - one - other]);
    }
    costs[0] += rng.pick(&[-2, -1, 0, 0, 1]);
    costs.sort_by_key(|cost| (cost * 7 % 11, *cost));
    let h = f * rows;
    let mut tasks: Vec<Short> = vec![(in_each, f, f, 0)];
    tasks.extend(costs.iter().map(|c| (*c, h, h, 0)));
    request(&tasks, &[])
}

/// Few rows, phases, and up to 16 tasks of two periods, in a cycle with several plausible lengths.
fn few_rows(rng: &mut Random) -> Vec<u8> {
    let h = rng.pick(&[240, 360, 420, 480]);
    let share = rng.between(92, 104);
    let (mut tasks, mut left): (Vec<Short>, i64) = (Vec::new(), h * share / 100);
    while tasks.len() < 16 && left > 0 {
        let jobs = rng.pick(&[1, 2]);
        let c = rng.between(h / 40, h / 16).min((left / jobs).max(1));
        let t = h / jobs;
        let p = if rng.chance(50) {
            0
        } else {
            rng.between(0, t - 1)
        };
        tasks.push((c, t, rng.between(t * 3 / 4, t), p));
        left -= c * jobs;
    }
    silent_request(&tasks, &[], rng.pick(&[0, 0, 1]))
}

/// Many jobs of 16 tasks, and rows that are nearly full.
fn crowded(rng: &mut Random) -> Vec<u8> {
    let f = rng.pick(&[16, 20, 25]);
    let rows = 16;
    let mut tasks: Vec<Short> = vec![(1, f, f, 0)];
    let mut left = (f - 1) * rows + rng.between(-4, 4);
    while tasks.len() < 16 && left > 0 {
        let jobs = rng.pick(&[2, 4, 4, 8, 8]);
        let t = f * rows / jobs;
        let c = rng.between(1, f / 2).min((left / jobs).max(1));
        let d = rng.between(t * 2 / 3, t).max(2 * f - 1).min(t);
        tasks.push((c, t, d, f * rng.between(0, t / f - 1)));
        left -= c * jobs;
    }
    request(&tasks, &[])
}

/// The request of the kind and the seed, if the tries leave it open.
pub fn drawn(kind: Kind, seed: u64) -> Option<Vec<u8>> {
    let bytes = kind(&mut Random::new(seed));
    tries_within(&bytes, PROGRAM_TRIES)
        .is_none()
        .then_some(bytes)
}

/// So many requests, seed by seed of each kind.
pub fn requests(count: usize) -> Vec<Vec<u8>> {
    let seeded = (1..).flat_map(|seed| KINDS.map(|kind| (kind, seed)));
    let open = seeded.filter_map(|(kind, seed)| drawn(kind, seed));
    open.take(count).collect()
}

/// A request of some kind, open or not.
pub fn some_bytes(rng: &mut Random) -> Vec<u8> {
    rng.pick(&KINDS)(rng)
}

/// A request that the tries leave open, with its answer and the table.
pub struct Stored {
    pub request: Vec<u8>,
    pub answer: i32,
    pub table: Vec<u8>,
}

/// The requests in `left-open.txt`, which `answers left-open` drew.
pub fn stored() -> Vec<Stored> {
    let path = concat!(env!("CARGO_MANIFEST_DIR"), "/left-open.txt");
    let text = fs::read_to_string(path).expect("it can be read");
    let of_line = |line: &str| {
        let words: Vec<&str> = line.split(' ').collect();
        Stored {
            request: from_hex(words[1]),
            answer: words[2].parse().expect("an answer"),
            table: from_hex(words[3]),
        }
    };
    text.lines().map(of_line).collect()
}
