//! Seeded requests and tables, valid and damaged.

use crate::random::Random;
use crate::reference::cycle::{self, Cycle};
use crate::reference::model::plausible_lengths;
use crate::reference::read_cycle;
use crate::reference::request::{self, Request, Task};
use crate::reference::search::{plan_of_length, Direction, Effort, Found};
use crate::reference::table::{self, Entry, Table};

const CYCLES: [i64; 40] = [
    6, 8, 10, 12, 16, 18, 20, 24, 28, 30, 32, 36, 40, 42, 45, 48, 54, 56, 60, 64, 70, 72, 80, 84,
    90, 96, 100, 108, 120, 128, 140, 144, 150, 160, 168, 180, 200, 210, 240, 360,
];

const LONG_CYCLES: [i64; 12] = [
    720, 840, 1000, 1024, 1260, 2048, 2520, 4096, 5040, 8192, 9240, 10_000,
];

fn divisors(h: i64) -> Vec<i64> {
    (1..=h).filter(|d| h % d == 0).collect()
}

/// The largest number that divides both.
fn gcd(a: i64, b: i64) -> i64 {
    (1..=a.min(b))
        .rev()
        .find(|g| a % g == 0 && b % g == 0)
        .expect("both numbers are at least 1")
}

/// A few periods that divide h and let a frame of length f be plausible.
fn periods(rng: &mut Random, h: i64, f: i64) -> Vec<i64> {
    let fitting: Vec<i64> = divisors(h)
        .into_iter()
        .filter(|t| 2 * f - gcd(f, *t) <= *t && h / t <= 64)
        .collect();
    let count = rng.between(1, 3);
    (0..count).map(|_| rng.pick(&fitting)).collect()
}

/// Often the least deadline with which every window of a task of phase p holds a frame of f ticks,
/// or with phase 0 would, and now and then one tick less.
fn deadline(rng: &mut Random, c: i64, t: i64, p: i64, f: i64) -> i64 {
    let common = gcd(f, t);
    let after = if p % common == 0 { common } else { p % common };
    let least = (2 * f - after).max(c).min(t);
    match rng.below(9) {
        0..=2 => t,
        3 => least,
        4 => (least - 1).max(c),
        5 => (2 * f - common).max(c).min(t),
        6 | 7 => rng.between(least, t),
        _ => rng.between(c, t),
    }
}

fn phase(rng: &mut Random, t: i64, f: i64) -> i64 {
    match rng.below(6) {
        0 | 1 => 0,
        2 => {
            let step = gcd(f, t);
            step * rng.between(0, t / step - 1)
        }
        3 => t - 1,
        _ => rng.between(0, t - 1),
    }
}

/// Some pairs of tasks with equal periods, now and then one of them twice.
fn pairs(rng: &mut Random, tasks: &[Task]) -> Vec<(usize, usize)> {
    let mut possible = Vec::new();
    for b in 0..tasks.len() {
        for a in 0..b {
            if tasks[a].t == tasks[b].t {
                possible.push((a, b));
            }
        }
    }
    if possible.is_empty() || rng.chance(20) {
        return Vec::new();
    }
    let count = if rng.chance(10) {
        16
    } else {
        rng.between(1, 5)
    };
    (0..count).map(|_| rng.pick(&possible)).collect()
}

/// g for frames of f ticks: often 0, mostly small against f.
fn silent_ticks(rng: &mut Random, f: i64) -> i64 {
    match rng.below(10) {
        0..=4 => 0,
        5..=8 => rng.between(1, (f / 4).clamp(1, 15)),
        _ => rng.between(1, 15),
    }
}

/// Tasks made for a frame length f that divides h, so that f is often plausible.
fn framed(rng: &mut Random, h: i64) -> Request {
    let lengths: Vec<i64> = divisors(h).into_iter().filter(|f| h / f <= 256).collect();
    let f = rng.pick(&lengths);
    let g = silent_ticks(rng, f);
    let palette = periods(rng, h, f);
    let most = if rng.chance(15) { 16 } else { 6 };
    let wanted = rng.between(1, most);
    // Of each row's f ticks, this share (in hundredths) shall be asked for.
    let share = rng.between(30, 115);
    let mut tasks: Vec<Task> = Vec::new();
    let mut jobs = 0;
    let mut asked = 0;
    while (tasks.len() as i64) < wanted {
        let t = rng.pick(&palette);
        let left = (share * h / 100 - asked) * t / h;
        let roof = t.min(f - g).min(left - g);
        let c = rng.between(1, roof.max(1));
        jobs += h / t;
        asked += (c + g) * (h / t);
        if jobs > 128 && !tasks.is_empty() && !rng.chance(3) {
            break;
        }
        let p = phase(rng, t, f);
        let d = deadline(rng, c, t, p, f);
        tasks.push(Task { c, t, d, p });
    }
    let pairs = pairs(rng, &tasks);
    Request { tasks, pairs, g }
}

/// Small tasks with no thought of a frame length; the cycle may be too long.
fn loose(rng: &mut Random) -> Request {
    let count = rng.between(1, 6);
    let longest = rng.pick(&[4, 8, 12, 30, 400]);
    let mut tasks: Vec<Task> = Vec::new();
    for _ in 0..count {
        let t = if !tasks.is_empty() && rng.chance(40) {
            tasks[0].t
        } else {
            rng.between(1, longest)
        };
        let c = rng.between(1, (t / 3).max(1));
        let d = rng.between(c, t);
        let p = rng.between(0, t - 1);
        tasks.push(Task { c, t, d, p });
    }
    let pairs = pairs(rng, &tasks);
    let g = silent_ticks(rng, longest / 4);
    Request { tasks, pairs, g }
}

/// The bytes of a request of small tasks; many are refused with 7 or 8.
pub fn loose_bytes(rng: &mut Random) -> Vec<u8> {
    let request = loose(rng);
    written(rng, &request)
}

fn plain_task(c: i64, t: i64, d: i64, p: i64) -> Task {
    Task { c, t, d, p }
}

/// 64 + 32 + 16 + 8 + 4 + 2 + 1 + 1 = 128 jobs in a cycle of 640.
fn halving(rng: &mut Random) -> Vec<Task> {
    let shift = rng.chance(50);
    [10, 20, 40, 80, 160, 320, 640, 640]
        .iter()
        .map(|&t| {
            let p = if shift { rng.between(0, t - 1) } else { 0 };
            plain_task(rng.between(1, 4), t, t, p)
        })
        .collect()
}

/// 15 tasks with 8 jobs and one with a single job.
fn many_pairs(rng: &mut Random) -> Vec<Task> {
    let t = rng.pick(&[16, 24, 60]);
    let mut tasks: Vec<Task> = (0..15)
        .map(|_| {
            let p = rng.pick(&[0, 0, t / 4, t / 2]);
            plain_task(1, t, t, p)
        })
        .collect();
    tasks.push(plain_task(1, 8 * t, 8 * t, rng.between(0, 8 * t - 1)));
    tasks
}

/// Requests at the limits: 128 and 129 jobs, 256 and 257 rows, cycles about 10,000.
fn at_a_limit(rng: &mut Random) -> Request {
    let tasks = match rng.below(8) {
        0 => halving(rng),
        1 => vec![plain_task(1, 1, 1, 0), plain_task(1, 128, 128, 0)],
        2 => vec![
            plain_task(rng.between(1, 40), 64, 64, 0),
            plain_task(rng.between(1, 40), 8_128, 8_128, rng.between(0, 8_127)),
        ],
        3 => {
            let t = rng.pick(&[255, 256, 257, 512]);
            vec![plain_task(1, t, rng.between(1, 3), 0)]
        }
        4 => vec![
            plain_task(1, 10_000, rng.between(1, 10_000), rng.between(0, 9_999)),
            plain_task(rng.between(1, 90), 100, 100, rng.between(0, 99)),
        ],
        5 => vec![plain_task(1, 10_000 + rng.between(0, 1), 10_000, 0)],
        6 => {
            let t = rng.pick(&[127, 125, 128, 100]);
            vec![plain_task(1, t, t, 0), plain_task(1, 80, 80, 0)]
        }
        _ => many_pairs(rng),
    };
    let pairs = pairs(rng, &tasks);
    let g = if rng.chance(50) {
        0
    } else {
        rng.between(1, 15)
    };
    Request { tasks, pairs, g }
}

/// The bytes of a request. A g of 0 is written in each way that there is.
pub fn written(rng: &mut Random, request: &Request) -> Vec<u8> {
    let mut bytes = request::write(request);
    if request.g == 0 {
        match rng.below(6) {
            0 => bytes.push(0),
            1 => bytes.extend([1, 0]),
            _ => {}
        }
    }
    bytes
}

/// Bytes that can be read as a request; it may be refused by 7, 8, 9 or 10.
pub fn valid_bytes(rng: &mut Random) -> Vec<u8> {
    let request = valid_request(rng);
    written(rng, &request)
}

fn valid_request(rng: &mut Random) -> Request {
    match rng.below(20) {
        0..=12 => {
            let h = rng.pick(&CYCLES);
            framed(rng, h)
        }
        13 | 14 => {
            let h = rng.pick(&LONG_CYCLES);
            framed(rng, h)
        }
        15..=18 => loose(rng),
        _ => at_a_limit(rng),
    }
}

/// 10 to 16 short tasks of which a frame can hold one job each, so that rows get long. With
/// phases, many jobs are carried.
fn crowded_request(rng: &mut Random) -> Request {
    let count = if rng.chance(40) {
        16
    } else {
        rng.between(10, 16)
    };
    let t = rng.pick(&[32, 48, 64, 100]);
    let phased = rng.chance(50);
    let tasks: Vec<Task> = (0..count)
        .map(|_| {
            let period = t * rng.pick(if phased { &[2, 2, 4] } else { &[1, 2, 4] });
            let p = if phased {
                rng.between(1, period - 1)
            } else {
                0
            };
            plain_task(rng.between(1, 2), period, period, p)
        })
        .collect();
    let pairs = pairs(rng, &tasks);
    let g = if rng.chance(70) { 0 } else { 1 };
    Request { tasks, pairs, g }
}

/// The bytes of a request with many short tasks.
pub fn crowded_bytes(rng: &mut Random) -> Vec<u8> {
    let request = crowded_request(rng);
    written(rng, &request)
}

/// A task of period t and any phase. It takes up to a part of its period; often its deadline is the period.
fn loose_task(rng: &mut Random, t: i64, part: i64) -> Task {
    let c = rng.between(1, (t / part).max(1));
    let d = match rng.below(3) {
        0 => t,
        1 => rng.between((c + t) / 2, t),
        _ => rng.between(c, t),
    };
    plain_task(c, t, d, rng.between(0, t - 1))
}

/// A few tasks of short periods: over the phases of one of them the answers of planning differ.
fn short_request(rng: &mut Random) -> Request {
    let base = rng.pick(&[2, 3, 4, 5, 6, 8, 9, 10, 12, 16]);
    let count = rng.between(1, 5);
    let tasks: Vec<Task> = (0..count)
        .map(|_| {
            let times = rng.pick(&[1, 1, 1, 2, 2, 3]);
            let part = rng.pick(&[2, 3, 4]);
            loose_task(rng, base * times, part)
        })
        .collect();
    let pairs = pairs(rng, &tasks);
    let g = if rng.chance(70) { 0 } else { rng.between(1, 3) };
    Request { tasks, pairs, g }
}

/// The bytes of a request with a few tasks of short periods.
pub fn short_bytes(rng: &mut Random) -> Vec<u8> {
    let request = short_request(rng);
    written(rng, &request)
}

/// The bytes of a request of up to three tasks with one long period, which has more than 255 phases.
pub fn lone_bytes(rng: &mut Random) -> Vec<u8> {
    let t = rng.between(257, 400);
    let count = rng.between(1, 3);
    let tasks: Vec<Task> = (0..count)
        .map(|_| {
            let part = rng.pick(&[1, 2, t]);
            loose_task(rng, t, part)
        })
        .collect();
    let pairs = pairs(rng, &tasks);
    written(rng, &Request { tasks, pairs, g: 0 })
}

/// Bytes of any content, now and then beginning like a request or a table.
pub fn noise(rng: &mut Random) -> Vec<u8> {
    let longest = rng.pick(&[3, 12, 40, 170, 400]);
    let count = rng.below(longest);
    let mut bytes = rng.bytes(count);
    if let Some(first) = bytes.first_mut() {
        if rng.chance(60) {
            *first = rng.pick(&[0, 1, 2, 3, 16, 17]);
        }
    }
    bytes
}

fn put_number(bytes: &mut [u8], at: usize, number: i64) {
    if at + 2 <= bytes.len() {
        bytes[at..at + 2].copy_from_slice(&(number as u16).to_le_bytes());
    }
}

/// A third section for a request that has none: good, bad, cut, or with a byte behind it.
fn third_section(rng: &mut Random) -> Vec<u8> {
    let good = rng.below(16) as u8;
    let above = rng.pick(&[16, 17, 31, 128, 255]);
    match rng.below(9) {
        0 => vec![0],
        1 => vec![1, good],
        2 => vec![1],
        3 => vec![rng.pick(&[2, 3, 16, 129, 255])],
        4 => vec![2, good, good],
        5 => vec![1, above],
        6 => vec![1, above, good],
        7 => vec![1, good, rng.byte()],
        _ => vec![0, rng.byte()],
    }
}

fn damage_once(rng: &mut Random, bytes: &mut Vec<u8>) {
    let length = bytes.len();
    if length == 0 {
        bytes.push(rng.byte());
        return;
    }
    let at = rng.below(length);
    match rng.below(9) {
        0 => bytes[at] ^= 1 << rng.below(8),
        1 => bytes[at] = rng.byte(),
        2 => bytes.truncate(at),
        3 => bytes.insert(at, rng.byte()),
        4 => {
            bytes.remove(at);
        }
        5 => {
            let more = 1 + rng.below(4);
            let tail = if rng.chance(50) {
                rng.bytes(more)
            } else {
                third_section(rng)
            };
            bytes.extend(tail);
        }
        6 => bytes[at] = bytes[at].wrapping_add(rng.pick(&[1, 255])),
        7 => bytes[0] = rng.pick(&[0, 1, 2, 15, 16, 17, 255]),
        _ => {
            let number = rng.pick(&[0, 1, 2, 255, 256, 9_999, 10_000, 10_001, 32_768, 65_535]);
            put_number(bytes, at, number);
        }
    }
}

/// One to three damages anywhere in the bytes.
pub fn damage(rng: &mut Random, bytes: &mut Vec<u8>) {
    for _ in 0..1 + rng.below(3) {
        damage_once(rng, bytes);
    }
}

/// A request with one field, count, pair or its third section made wrong, and all else kept.
pub fn damage_a_field(rng: &mut Random, bytes: &mut Vec<u8>) {
    let n = usize::from(bytes[0]);
    let pair_count_at = 1 + 8 * n;
    let pairs_end = pair_count_at + 1 + 2 * usize::from(bytes[pair_count_at]);
    match rng.below(8) {
        0 => bytes[0] = rng.pick(&[0, 17, n as u8 + 1, n as u8 - 1]),
        1 => bytes[pair_count_at] = rng.pick(&[17, 255, bytes[pair_count_at] + 1]),
        2 | 3 => {
            let at = 1 + 8 * rng.below(n) + 2 * rng.below(4);
            let old = i64::from(bytes[at]) + 256 * i64::from(bytes[at + 1]);
            let number = rng.pick(&[0, old + 1, (old - 1).max(0), 2 * old, 65_535]);
            put_number(bytes, at, number);
        }
        4 => {
            if bytes.len() == pairs_end {
                bytes.push(0);
            }
            bytes.push(rng.byte());
        }
        5 => {
            bytes[pair_count_at] = bytes[pair_count_at].wrapping_add(1);
            let pair = [rng.below(n + 1) as u8, rng.below(n + 1) as u8];
            bytes.splice(pairs_end..pairs_end, pair);
        }
        _ => {
            bytes.truncate(pairs_end);
            bytes.extend(third_section(rng));
        }
    }
}

/// Bytes to be read as a request: mostly valid, some damaged, some noise.
pub fn request_bytes(rng: &mut Random) -> Vec<u8> {
    if rng.chance(6) {
        return noise(rng);
    }
    let mut bytes = valid_bytes(rng);
    if rng.chance(16) {
        damage_a_field(rng, &mut bytes);
    } else if rng.chance(12) {
        damage(rng, &mut bytes);
    }
    bytes
}

/// Some plan of the cycle: any plausible length, either direction.
pub fn some_plan(rng: &mut Random, cycle: &Cycle, tries: u64) -> Option<Table> {
    let lengths = plausible_lengths(cycle);
    if lengths.is_empty() {
        return None;
    }
    let f = rng.pick(&lengths);
    let direction = rng.pick(&[Direction::LatestFirst, Direction::EarliestFirst]);
    match plan_of_length(cycle, f, direction, &mut Effort::up_to(tries)) {
        Found::Plan(frames) => Some(table::of_plan(cycle, f, &frames)),
        Found::NoPlan | Found::TooHard => None,
    }
}

/// A table of the right form that puts each job into a random row.
pub fn careless_table(rng: &mut Random, cycle: &Cycle) -> Table {
    let lengths: Vec<i64> = divisors(cycle.h)
        .into_iter()
        .filter(|f| cycle.h / f <= 256)
        .collect();
    let f = rng.pick(&lengths);
    let rows = cycle.h / f;
    let frames: Vec<i64> = cycle
        .jobs
        .iter()
        .map(|job| {
            let near = (job.release + f - 1) / f + rng.between(0, 1);
            near.min(2 * rows - 1)
        })
        .collect();
    let mut table = table::of_plan(cycle, f, &frames);
    for row in &mut table.rows {
        row.dedup_by_key(|entry| entry.task);
    }
    table
}

fn put_in_row(table: &mut Table, row: usize, entry: Entry) {
    let entries = &mut table.rows[row];
    if entries.iter().all(|other| other.task != entry.task) {
        entries.push(entry);
        entries.sort();
    }
}

/// A random entry: its row and its place there.
fn some_entry(rng: &mut Random, table: &Table) -> Option<(usize, usize)> {
    let filled: Vec<usize> = (0..table.rows.len())
        .filter(|row| !table.rows[*row].is_empty())
        .collect();
    if filled.is_empty() {
        return None;
    }
    let row = rng.pick(&filled);
    Some((row, rng.below(table.rows[row].len())))
}

fn disturb_entry(rng: &mut Random, table: &mut Table) {
    let Some((row, place)) = some_entry(rng, table) else {
        return;
    };
    let other = match rng.below(3) {
        0 => (row + 1) % table.rows.len(),
        1 => (row + table.rows.len() - 1) % table.rows.len(),
        _ => rng.below(table.rows.len()),
    };
    let entry = table.rows[row][place];
    match rng.below(7) {
        0 => table.rows[row][place].carry ^= true,
        1 => {
            table.rows[row].remove(place);
        }
        2 | 3 => {
            table.rows[row].remove(place);
            put_in_row(table, other, entry);
        }
        4 => put_in_row(table, other, entry),
        5 => table.rows[row][place].job = rng.pick(&[0, 1, 127, (entry.job + 1) % 128]),
        _ => {
            table.rows[row].remove(place);
            let task = rng.between(0, 15);
            put_in_row(table, row, Entry { task, ..entry });
        }
    }
}

fn repeat(table: &mut Table) {
    let again = table.rows.clone();
    table.rows.extend(again);
    table.h *= 2;
}

/// A change to a table that mostly keeps its form.
pub fn disturb(rng: &mut Random, table: &mut Table) {
    match rng.below(12) {
        0 => repeat(table),
        1 => {
            table.f *= 2;
            table.h *= 2;
        }
        2 => table.rows.push(Vec::new()),
        3 => {
            let (a, b) = (rng.below(table.rows.len()), rng.below(table.rows.len()));
            table.rows.swap(a, b);
        }
        4 => {
            if let Some((row, place)) = some_entry(rng, table) {
                let entry = table.rows[row][place];
                table.rows[row].insert(place, entry);
            }
        }
        5 => {
            let row = rng.below(table.rows.len());
            table.rows[row].reverse();
        }
        _ => disturb_entry(rng, table),
    }
}

/// The same tasks and pairs with a smaller g.
fn with_less_silence(rng: &mut Random, cycle: &Cycle) -> Cycle {
    let mut request = cycle.request.clone();
    request.g = rng.pick(&[0, request.g - 1]);
    cycle::of(request).expect("g is not in the limits")
}

/// A cycle's tables of the right form: the chosen one, another plan, one that leaves too little
/// silence, a careless one, and each of these disturbed.
fn tables_of_cycle(
    rng: &mut Random,
    cycle: &Cycle,
    chosen: Option<&Table>,
    tries: u64,
) -> Vec<Table> {
    let mut tables: Vec<Table> = chosen.cloned().into_iter().collect();
    tables.extend(some_plan(rng, cycle, tries));
    if cycle.request.g > 0 {
        let louder = with_less_silence(rng, cycle);
        tables.extend(some_plan(rng, &louder, tries));
    }
    tables.push(careless_table(rng, cycle));
    for place in 0..tables.len() {
        let mut disturbed = tables[place].clone();
        disturb(rng, &mut disturbed);
        tables.push(disturbed);
    }
    tables
}

/// Bytes to be checked as a table of a request: its own table, other plans, disturbed and
/// damaged ones, and noise.
pub fn table_pool(
    rng: &mut Random,
    request: &[u8],
    chosen: Option<&Table>,
    tries: u64,
) -> Vec<Vec<u8>> {
    let tables = match read_cycle(request) {
        Ok(cycle) => tables_of_cycle(rng, &cycle, chosen, tries),
        Err(_) => Vec::new(),
    };
    let mut pool: Vec<Vec<u8>> = tables.iter().map(table::encode).collect();
    if let Some(first) = pool.first() {
        let mut damaged = first.clone();
        damage(rng, &mut damaged);
        pool.push(damaged);
    }
    pool.push(noise(rng));
    pool
}
