//! Drafts, moves of their jobs by hand, and one round of comparison with them.

use crate::bus::DRAFT_LEN;
use crate::call::Call;
use crate::comparison::{Comparison, MOST_TRIES};
use crate::generate;
use crate::random::Random;
use crate::reference::cycle::Cycle;
use crate::reference::draft::{lift, put, sound, start, Draft, LIFTED, ROWS};
use crate::reference::model::{plausible_lengths, window};
use crate::reference::request::{write, Request, Task};
use crate::reference::table::encode;
use crate::reference::{planned, read_cycle, tries_within};

const MOVES_OF_A_WALK: usize = 16;
const OTHER_DRAFTS: usize = 6;

/// A lift of a job, or a put of a job into a frame.
#[derive(Clone, Copy, Debug, PartialEq, Eq)]
pub enum Move {
    Lift(u8),
    Put(u8, u16),
}

/// The call that makes the move.
pub fn call(request: &[u8], step: Move, draft: &[u8]) -> Call {
    match step {
        Move::Lift(job) => Call::draft_lift(request, job, draft),
        Move::Put(job, frame) => Call::draft_put(request, job, frame, draft),
    }
}

/// The rows of a draft, so far as its frame length cuts the cycle into some.
fn rows_of(cycle: &Cycle, draft: &Draft) -> i64 {
    (cycle.h / i64::from(draft.f).max(1)).clamp(1, ROWS as i64)
}

/// A job, mostly one that is lifted or one that is not; now and then none of the request's, and one
/// that is so only in 7 bits.
pub fn some_job(rng: &mut Random, request: &[u8], draft: &Draft, lifted: bool) -> u8 {
    let count = read_cycle(request).map_or(5, |cycle| cycle.jobs.len());
    let fitting = (0..count).filter(|job| (draft.frames[*job] == LIFTED) == lifted);
    let fitting: Vec<usize> = fitting.collect();
    let job = match rng.below(20) {
        0 => rng.pick(&[count, count + 1, 127, 128, 255]),
        1 => rng.below(count) + 128,
        2 => rng.below(count),
        _ if fitting.is_empty() => rng.below(count),
        _ => rng.pick(&fitting),
    };
    job as u8
}

/// The frame of a job that the pairs name with this one, or one beside it.
fn by_a_partner(rng: &mut Random, cycle: &Cycle, draft: &Draft, job: usize) -> Option<i64> {
    let named = cycle.jobs.get(job)?;
    let pairs = &cycle.request.pairs;
    let partners = draft.placed(cycle).into_iter().filter(|(other, _)| {
        let both = [(named.task, other.task), (other.task, named.task)];
        named.number == other.number && both.iter().any(|pair| pairs.contains(pair))
    });
    let frames: Vec<i64> = partners.map(|(_, k)| k).collect();
    let near = rng.pick(&[0, 1, -1]);
    (!frames.is_empty()).then(|| rng.pick(&frames) + near)
}

/// A frame for a job: mostly of its window, often the first, the last, one in the fullest row or one by
/// a partner's, now and then just outside, in the other cycle, lifted, or of the window only in 16 bits
/// or in 8.
pub fn some_frame(rng: &mut Random, request: &[u8], draft: &Draft, job: usize) -> u16 {
    let Ok(cycle) = read_cycle(request) else {
        return rng.pick(&[0, 1, LIFTED]);
    };
    let (f, rows) = (i64::from(draft.f).max(1), rows_of(&cycle, draft));
    let known = cycle.jobs.get(job);
    let inside = known.map_or(Vec::new(), |job| window(job, f, rows));
    let first = inside.first().copied().unwrap_or(0);
    let last = inside.last().copied().unwrap_or(2 * rows);
    let any = rng.between(first, last);
    let load = |k: &&i64| draft.loads[(**k % rows) as usize];
    let fullest = inside.iter().max_by_key(load).copied();
    let partner = by_a_partner(rng, &cycle, draft, job);
    let frame = match rng.below(24) {
        0 => first - 1,
        1 => last + 1,
        2 => rng.between(0, 2 * rows),
        3 => any + rng.pick(&[rows, -rows]),
        4 => i64::from(LIFTED),
        5 => any + (65_536 >> f.trailing_zeros().min(8)),
        6 => any + 256,
        7 => rng.between(0, 65_535),
        8 | 9 => first,
        10 | 11 => last,
        12..=15 => fullest.unwrap_or(any),
        16..=19 => partner.unwrap_or(any),
        _ => any,
    };
    frame.rem_euclid(65_536) as u16
}

/// A lift or a put, mostly a lift while no job is lifted.
pub fn some_move(rng: &mut Random, request: &[u8], draft: &Draft) -> Move {
    let jobs = read_cycle(request).map_or(0, |cycle| cycle.jobs.len());
    let lifted = draft.frames[..jobs].contains(&LIFTED);
    if rng.chance(if lifted { 35 } else { 80 }) {
        return Move::Lift(some_job(rng, request, draft, false));
    }
    let job = some_job(rng, request, draft, true);
    Move::Put(job, some_frame(rng, request, draft, job.into()))
}

/// A draft after some moves, refused ones among them.
fn walked(rng: &mut Random, request: &[u8], mut draft: Draft) -> Draft {
    for _ in 0..rng.below(8) {
        let after = match some_move(rng, request, &draft) {
            Move::Lift(job) => lift(request, job, draft.clone()),
            Move::Put(job, frame) => put(request, job, frame, draft.clone()),
        };
        draft = after.unwrap_or(draft);
    }
    draft
}

/// A frame length, plausible or not, that cuts the cycle into rows that a draft has places for.
fn some_divisor(rng: &mut Random, h: i64) -> i64 {
    let cuts = (1..=h).filter(|f| h % f == 0 && h / f <= ROWS as i64);
    let cuts: Vec<i64> = cuts.collect();
    rng.pick(&cuts)
}

/// Some jobs lifted and the others anywhere in their windows, every load right in 16 bits.
fn careless(rng: &mut Random, cycle: &Cycle) -> Draft {
    let lengths = plausible_lengths(cycle);
    let f = match lengths.first() {
        _ if rng.chance(15) => some_divisor(rng, cycle.h),
        Some(longest) if rng.chance(50) => *longest,
        Some(_) => rng.pick(&lengths),
        None => cycle.h,
    };
    let rows = cycle.h / f;
    let percent = rng.pick(&[0, 0, 40, 75, 90, 100]);
    let mut draft = Draft::unused(f as u16);
    for (job, place) in cycle.jobs.iter().zip(&mut draft.frames) {
        let inside = window(job, f, rows);
        *place = match inside.is_empty() || rng.chance(percent) {
            true => LIFTED,
            false => rng.pick(&inside) as u16,
        };
    }
    draft.summed_up(cycle)
}

/// One thing of a draft changed: the frame length, a load, a job's frame with its load or without.
fn damage(rng: &mut Random, cycle: &Cycle, draft: &mut Draft) {
    let (f, rows) = (draft.f, rows_of(cycle, draft));
    let (job, other) = (rng.below(cycle.jobs.len()), rng.below(cycle.jobs.len()));
    let (row, next) = (rng.below(rows as usize), rng.below(rows as usize));
    let slot = cycle.jobs[job].slot as u16;
    let near = some_frame(rng, &write(&cycle.request), draft, job);
    let frame = &mut draft.frames[job];
    match rng.below(14) {
        0 => {
            let half = f / 2;
            let around = [
                f.wrapping_add(1),
                f.wrapping_sub(1),
                f.wrapping_mul(2),
                half,
            ];
            let fixed = [0, 1, cycle.h as u16, LIFTED];
            draft.f = rng.pick(&[around, fixed].concat());
        }
        1 => draft.loads[row] = draft.loads[row].wrapping_add(rng.pick(&[1, LIFTED, 256])),
        2 => draft.loads[row] = rng.pick(&[0, f, LIFTED, draft.loads[next]]),
        3 => draft.loads.swap(row, next),
        4 => *frame = LIFTED,
        5 => draft.loads[row] = draft.loads[row].wrapping_sub(slot),
        6 => *frame = near,
        7 => *frame = frame.wrapping_add(rows as u16),
        8 => *frame = frame.wrapping_sub(rows as u16),
        9 => draft.frames.swap(job, other),
        _ => {
            match rng.below(3) {
                0 => *frame = near,
                1 => *frame = frame.wrapping_add(rng.pick(&[1, LIFTED])),
                _ => draft.frames.swap(job, other),
            }
            if f > 0 && cycle.h % i64::from(f) == 0 {
                *draft = draft.clone().summed_up(cycle);
            }
        }
    }
}

/// Other content in the unused places.
fn litter(rng: &mut Random, cycle: &Cycle, draft: &mut Draft) {
    let rows = rows_of(cycle, draft) as usize;
    let (jobs, any) = (cycle.jobs.len(), rng.draw() as u16);
    if rng.chance(70) {
        draft.frames[jobs..].fill(rng.pick(&[any, LIFTED, 1]));
    }
    if rng.chance(70) {
        draft.loads[rows..].fill(rng.pick(&[any, LIFTED, 1]));
    }
}

/// A draft of a cycle: of a plan or careless, walked, in part damaged.
fn of_cycle(rng: &mut Random, request: &[u8], cycle: &Cycle) -> Draft {
    let plan = match rng.chance(60) {
        true => generate::some_plan(rng, cycle, MOST_TRIES),
        false => None,
    };
    let mut draft = match plan {
        Some(table) => start(request, &encode(&table)).expect("it is a plan"),
        None => careless(rng, cycle),
    };
    if rng.chance(40) {
        litter(rng, cycle, &mut draft);
    }
    if sound(cycle, &draft) {
        draft = walked(rng, request, draft);
    }
    if rng.chance(35) {
        damage(rng, cycle, &mut draft);
    }
    draft
}

/// A draft, drawn about the request; now and then any 770 bytes.
pub fn some_draft(rng: &mut Random, request: &[u8]) -> Draft {
    match read_cycle(request) {
        Ok(cycle) if rng.chance(95) => of_cycle(rng, request, &cycle),
        _ if rng.chance(50) => Draft::read(&rng.bytes(DRAFT_LEN)),
        _ => Draft::read(&[rng.pick(&[0, 255]); DRAFT_LEN]),
    }
}

/// Transfers that fill more than 65,536 ticks of one row, and hardly more.
fn wide_request(rng: &mut Random) -> Vec<u8> {
    let t = rng.pick(&[9_600, 10_000]);
    let count = rng.between(7, 16);
    let sum = 65_536 + rng.pick(&[0, 1, 100]);
    let tasks = (0..count).map(|place| {
        let c = sum / count + i64::from(place < sum % count);
        Task { c, t, d: t, p: 0 }
    });
    write(&Request {
        tasks: tasks.collect(),
        pairs: Vec::new(),
        g: 0,
    })
}

/// Some transfers in a table of many rows, the frames of carried jobs being above 255 there.
fn tall_request(rng: &mut Random) -> Vec<u8> {
    let f = rng.pick(&[1, 2, 3, 10]);
    let t = f * rng.pick(&[200, 250, 256]);
    let tasks = (0..rng.between(1, 4)).map(|_| {
        let late = t - rng.between(1, 4 * f);
        Task {
            c: rng.between(1, f),
            t,
            d: rng.between(2 * f, 8 * f),
            p: rng.pick(&[late, late, 0]),
        }
    });
    write(&Request {
        tasks: tasks.collect(),
        pairs: Vec::new(),
        g: 0,
    })
}

fn some_request(rng: &mut Random) -> Vec<u8> {
    match rng.below(25) {
        0 => wide_request(rng),
        1 => tall_request(rng),
        2 | 3 => generate::crowded_bytes(rng),
        _ => generate::request_bytes(rng),
    }
}

impl Comparison<'_> {
    /// The draft's bytes, now and then with others behind them or, more seldom, cut short.
    fn lent_draft(&mut self, draft: &Draft) -> Vec<u8> {
        let mut bytes = draft.bytes();
        let length = match self.rng.below(40) {
            0 => self.rng.pick(&[0, 1, 64, DRAFT_LEN - 1]),
            1..=4 => DRAFT_LEN + 1 + self.rng.below(9),
            _ => DRAFT_LEN,
        };
        bytes.resize(length, self.rng.byte());
        bytes
    }

    /// Starts a draft of the table; what was started.
    fn start_draft(&mut self, request: &[u8], table: &[u8]) -> Result<Option<Draft>, String> {
        let any = Draft::read(&self.buffer(DRAFT_LEN));
        let lent = self.lent_draft(&any);
        let outcome = self.same(&Call::draft_start(request, table, &lent))?;
        Ok((outcome.answer == 0).then(|| Draft::read(&outcome.buffers[0])))
    }

    /// Makes the move; the draft after it.
    fn make_move(&mut self, request: &[u8], step: Move, draft: Draft) -> Result<Draft, String> {
        let lent = self.lent_draft(&draft);
        let outcome = self.same(&call(request, step, &lent))?;
        match outcome.answer {
            0 => Ok(Draft::read(&outcome.buffers[0])),
            _ => Ok(draft),
        }
    }

    fn write_draft(&mut self, request: &[u8], draft: &Draft) -> Result<(), String> {
        let lent = self.lent_draft(draft);
        let length = match read_cycle(request) {
            Ok(cycle) => 7 + rows_of(&cycle, draft) as usize + 2 * cycle.jobs.len(),
            Err(_) => 0,
        };
        let rooms = self.rooms(length);
        let out = self.rng.pick(&rooms);
        let out = self.buffer(out);
        self.same(&Call::draft_write(request, &lent, &out))?;
        Ok(())
    }

    /// Some moves one after the other, and the draft written now and then.
    fn walk(&mut self, request: &[u8], mut draft: Draft, moves: usize) -> Result<(), String> {
        self.write_draft(request, &draft)?;
        for _ in 0..moves {
            let step = some_move(&mut self.rng, request, &draft);
            draft = self.make_move(request, step, draft)?;
            if self.rng.chance(20) {
                self.write_draft(request, &draft)?;
            }
        }
        self.write_draft(request, &draft)
    }

    /// One of the drafts that were started, with other content in its unused places or as it is.
    fn walk_one(&mut self, request: &[u8], started: &[Draft]) -> Result<(), String> {
        let (Ok(cycle), false) = (read_cycle(request), started.is_empty()) else {
            return Ok(());
        };
        let mut draft = self.rng.pick(started);
        if self.rng.chance(40) {
            litter(&mut self.rng, &cycle, &mut draft);
        }
        self.walk(request, draft, MOVES_OF_A_WALK)
    }
}

/// One request: drafts started from some tables, one of them walked, and other drafts of all kinds.
pub fn round(comparison: &mut Comparison) -> Result<(), String> {
    let request = some_request(&mut comparison.rng);
    if tries_within(&request, MOST_TRIES).is_none() {
        comparison.tally.left_out += 1;
        return Ok(());
    }
    comparison.tally.requests += 1;
    let chosen = planned(&request).ok();
    let mut pool = generate::table_pool(&mut comparison.rng, &request, chosen.as_ref(), MOST_TRIES);
    pool.extend(chosen.as_ref().map(encode));
    let mut started = Vec::new();
    for table in &pool {
        started.extend(comparison.start_draft(&request, table)?);
    }
    comparison.walk_one(&request, &started)?;
    for _ in 0..OTHER_DRAFTS {
        let draft = some_draft(&mut comparison.rng, &request);
        comparison.walk(&request, draft, 2)?;
    }
    Ok(())
}
