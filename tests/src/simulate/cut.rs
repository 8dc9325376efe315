//! Flights of requests with a long transfer that was cut. They keep what a flight promises, and beside
//! that the old request's words: both pieces of a job run inside its window, the second starts when the
//! first has ended, and the old pairs are in order.

use super::{Flight, Instance};
use crate::bus::Bus;
use crate::comparison::MOST_TRIES;
use crate::generate;
use crate::lending::run;
use crate::random::Random;
use crate::reference::cut::Cut;
use crate::reference::cycle::Cycle;
use crate::reference::request::{self, Request};
use crate::reference::table::encode;
use crate::reference::{planned_within, read_cycle, tries_within};
use crate::rounds::cutting::call;

/// What a number of flights covered.
#[derive(Clone, Copy, Debug, Default)]
pub struct CutFlights {
    pub requests: u64,
    pub left_out: u64,
    pub flights: u64,
    /// Flights of which the old request has no plan.
    pub freed: u64,
    pub with_old_pairs: u64,
    pub with_silence: u64,
    /// Jobs of the cut task that were flown: all, those after the first cycle, those whose pieces
    /// start in two frames, and those whose pieces start in two cycles.
    pub jobs: u64,
    pub later: u64,
    pub in_two_frames: u64,
    pub in_two_cycles: u64,
}

/// A request whose task was cut: the old one's cycle, the task, and the new one's bytes.
struct CutRequest {
    old: Cycle,
    task: usize,
    bytes: Vec<u8>,
}

impl CutRequest {
    /// The number of the task, or of its first piece.
    fn first(&self, task: usize) -> i64 {
        (task + usize::from(task > self.task)) as i64
    }

    /// The number of the task, or of its second piece.
    fn last(&self, task: usize) -> i64 {
        (task + usize::from(task >= self.task)) as i64
    }
}

impl Flight<'_> {
    fn ran(&self, task: i64, number: i64, q: i64) -> Result<(i64, i64), String> {
        let instance: Instance = (task, number, q);
        let runs = self.log.get(&instance);
        let runs = runs.ok_or_else(|| format!("{instance:?} has not run"))?;
        Ok(runs[0])
    }

    /// The jobs of an old task that are due by the end of the flight, each with its cycle.
    fn old_jobs(&self, cut: &CutRequest, task: usize) -> Vec<(i64, i64)> {
        let end = self.plain.frames * self.table.f;
        let mut due = Vec::new();
        for q in 0..=end / cut.old.h {
            let jobs = cut.old.jobs.iter().filter(|job| job.task == task);
            let jobs = jobs.filter(|job| job.due + q * cut.old.h <= end);
            due.extend(jobs.map(|job| (job.number, q)));
        }
        due
    }

    /// Both pieces of every job of the cut task, inside its window and in order.
    fn judge_pieces(&self, cut: &CutRequest, done: &mut CutFlights) -> Result<(), String> {
        let task = cut.old.request.tasks[cut.task];
        let f = self.table.f;
        for (number, q) in self.old_jobs(cut, cut.task) {
            let release = task.p + number * task.t + q * cut.old.h;
            let one = self.ran(cut.first(cut.task), number, q)?;
            let two = self.ran(cut.last(cut.task), number, q)?;
            if one.0 < release || one.1 > two.0 || two.1 > release + task.d {
                return Err(format!(
                    "job {number} of cycle {q}, released at {release}: pieces {one:?} and {two:?}"
                ));
            }
            done.jobs += 1;
            done.later += u64::from(q > 0);
            done.in_two_frames += u64::from(one.0 / f != two.0 / f);
            done.in_two_cycles += u64::from(one.0 / cut.old.h != two.0 / cut.old.h);
        }
        Ok(())
    }

    /// Whenever a job of b has started, by its first piece, that of a had ended, by its last.
    fn judge_old_pairs(&self, cut: &CutRequest) -> Result<(), String> {
        for &(a, b) in &cut.old.request.pairs {
            for (number, q) in self.old_jobs(cut, b) {
                let (_, ended) = self.ran(cut.last(a), number, q)?;
                let (started, _) = self.ran(cut.first(b), number, q)?;
                if ended > started {
                    return Err(format!(
                        "old pair {a}, {b}, job {number} of cycle {q}: {ended} is after {started}"
                    ));
                }
            }
        }
        Ok(())
    }
}

/// One of the tasks, mostly the longest, made up to twice as long, if its deadline allows that.
fn lengthened(rng: &mut Random, request: &mut Request) -> usize {
    let any = rng.below(request.tasks.len());
    let longest = (0..request.tasks.len()).max_by_key(|task| request.tasks[*task].c);
    let long = longest.filter(|_| rng.chance(70)).unwrap_or(any);
    let task = &mut request.tasks[long];
    task.c = rng.between(task.c, 2 * task.c).min(task.d);
    long
}

/// A valid request with a task to be cut, mostly about its middle, and cut by the subject.
fn some_request(bus: &dyn Bus, rng: &mut Random) -> Result<Option<CutRequest>, String> {
    let Ok(mut request) = request::read(&generate::valid_bytes(rng)) else {
        return Ok(None);
    };
    let task = lengthened(rng, &mut request);
    let c = request.tasks[task].c;
    let bytes = generate::written(rng, &request);
    let full = request.tasks.len() == 16 || request.pairs.len() == 16;
    let Ok(old) = read_cycle(&bytes) else {
        return Ok(None);
    };
    if c == 1 || full {
        return Ok(None);
    }
    let first = match rng.below(3) {
        0 => rng.between(1, c - 1),
        _ => c / 2,
    };
    let asked = Cut {
        task: task as u8,
        first: first as u16,
    };
    let call = call(&bytes, asked, &[0; 200]);
    let outcome = run(bus, &call)?;
    if outcome.answer < 0 {
        return Err(format!("cut gave {}: {}", outcome.answer, call.describe()));
    }
    let bytes = outcome.buffers[0][..outcome.answer as usize].to_vec();
    Ok(Some(CutRequest { old, task, bytes }))
}

/// Flies one table of the cut request over up to four cycles.
fn fly_table(
    bus: &dyn Bus,
    rng: &mut Random,
    cut: &CutRequest,
    table: &[u8],
    done: &mut CutFlights,
) -> Result<(), String> {
    let mut flight = Flight::start(bus, &cut.bytes, table)?;
    let rows = flight.table.rows.len() as i64;
    let frames = rng.between(rows, 4 * rows).min(600);
    flight.fly(rng, frames)?;
    let judged = flight.judge_pieces(cut, done);
    let judged = judged.and_then(|()| flight.judge_old_pairs(cut));
    judged.map_err(|fault| format!("{fault}: task {} cut, {}", cut.task, flight.described()))?;
    let old = &cut.old.request;
    let before = planned_within(&request::write(old), MOST_TRIES).0;
    done.flights += 1;
    done.freed += u64::from(before == Err(9) || before == Err(10));
    done.with_old_pairs += u64::from(!old.pairs.is_empty());
    done.with_silence += u64::from(old.g > 0);
    Ok(())
}

/// The table that the subject plans for the cut request, if there is one, and another plan.
fn tables(bus: &dyn Bus, rng: &mut Random, cut: &CutRequest) -> Vec<Vec<u8>> {
    let mut out = vec![0; 1024];
    let answer = bus.plan_freely(&cut.bytes, &mut out);
    if answer < 0 {
        return Vec::new();
    }
    out.truncate(answer as usize);
    let cycle = read_cycle(&cut.bytes).ok();
    let other = cycle.and_then(|cycle| generate::some_plan(rng, &cycle, MOST_TRIES));
    let other = other.map(|table| encode(&table));
    [out].into_iter().chain(other).collect()
}

/// So many requests are drawn for each flight that is asked for, and no more.
const REQUESTS_FOR_A_FLIGHT: u64 = 40;

/// Cuts a long transfer of random requests, plans what was written and flies each table, and another
/// plan of the same request. It ends also where nothing is planned.
pub fn fly_cut(bus: &dyn Bus, seed: u64, flights: u64) -> Result<CutFlights, String> {
    let mut rng = Random::new(seed);
    let mut done = CutFlights::default();
    for _ in 0..flights * REQUESTS_FOR_A_FLIGHT {
        if done.flights >= flights {
            return Ok(done);
        }
        let Some(cut) = some_request(bus, &mut rng)? else {
            continue;
        };
        if tries_within(&cut.bytes, MOST_TRIES).is_none() {
            done.left_out += 1;
            continue;
        }
        done.requests += 1;
        for table in tables(bus, &mut rng, &cut) {
            fly_table(bus, &mut rng, &cut, &table, &mut done)?;
        }
    }
    Err(format!("too few tables: {done:?}"))
}
