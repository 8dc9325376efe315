//! A flight: a table served frame by frame with random actual times and reports, beside the
//! plain dispatcher that keeps only the frames served and the overruns of each task.

pub mod cut;
pub mod heater;
pub mod timer;

use std::collections::BTreeMap;

use crate::bus::{count_bytes, counts, Bus, ENTRIES_LEN, STATE_LEN, TASKS};
use crate::call::{hex, Call};
use crate::comparison::MOST_TRIES;
use crate::generate;
use crate::lending::run;
use crate::random::Random;
use crate::reference::cycle::{Cycle, Job};
use crate::reference::table::{decode, encode, Entry, Table};
use crate::reference::{read_cycle, request, tries_within};

/// A job of one cycle: task, job number, cycle.
type Instance = (i64, i64, i64);

/// The dispatcher that is fed calls without a state.
#[derive(Clone, Debug)]
struct PlainDispatcher {
    frames: i64,
    overruns: [i64; TASKS],
}

impl PlainDispatcher {
    fn next_frame(&mut self, table: &Table) -> Vec<Entry> {
        let count = table.rows.len() as i64;
        let row = &table.rows[(self.frames % count) as usize];
        let first_cycle = self.frames < count;
        self.frames += 1;
        row.iter()
            .filter(|entry| !(first_cycle && entry.carry))
            .copied()
            .collect()
    }

    fn report(&mut self, bytes: &[u8], task: u8, ticks: u32) -> i32 {
        let read = match request::read(bytes) {
            Ok(read) => read,
            Err(number) => return -number,
        };
        let Some(known) = read.tasks.get(usize::from(task)) else {
            return -16;
        };
        let overruns = &mut self.overruns[usize::from(task)];
        if i64::from(ticks) > known.c && *overruns < 65_535 {
            *overruns += 1;
        }
        0
    }
}

/// A report as it was made.
struct Report {
    request: Vec<u8>,
    task: u8,
    ticks: u32,
}

impl Report {
    /// An accepted report of the task, above its C.
    fn overran(&self, task: usize) -> bool {
        let above = |read: request::Request| {
            let known = read.tasks.get(task);
            known.is_some_and(|known| i64::from(self.ticks) > known.c)
        };
        usize::from(self.task) == task && request::read(&self.request).is_ok_and(above)
    }
}

/// Start and end of every run of every instance.
type Log = BTreeMap<Instance, Vec<(i64, i64)>>;

pub struct Flight<'a> {
    bus: &'a dyn Bus,
    cycle: Cycle,
    request: Vec<u8>,
    table_bytes: Vec<u8>,
    table: Table,
    plain: PlainDispatcher,
    state: Vec<u8>,
    log: Log,
    /// For each frame served, when the silent ticks of its last transfer are over.
    silent_until: Vec<i64>,
    reports: Vec<Report>,
}

impl<'a> Flight<'a> {
    /// A flight from the fresh state, with a table that the check accepts.
    pub fn start(
        bus: &'a dyn Bus,
        request: &[u8],
        table_bytes: &[u8],
    ) -> Result<Flight<'a>, String> {
        let cycle = read_cycle(request).map_err(|number| format!("request refused {number}"))?;
        let table = decode(table_bytes).ok_or("the table has not the form")?;
        if bus.check(request, table_bytes) != 0 {
            return Err(format!("table not accepted: {}", hex(table_bytes)));
        }
        let mut state = vec![0xEE; STATE_LEN];
        if bus.fresh(&mut state) != 0 {
            return Err("fresh refused".to_string());
        }
        Ok(Flight {
            bus,
            cycle,
            request: request.to_vec(),
            table_bytes: table_bytes.to_vec(),
            table,
            plain: PlainDispatcher {
                frames: 0,
                overruns: [0; TASKS],
            },
            state,
            log: Log::new(),
            silent_until: Vec::new(),
            reports: Vec::new(),
        })
    }

    /// Serves so many frames with reports between them, then judges the whole list.
    pub fn fly(&mut self, rng: &mut Random, frames: i64) -> Result<(), String> {
        for _ in 0..frames {
            self.serve(rng)?;
            while rng.chance(40) {
                self.report(rng)?;
            }
        }
        self.judge_state()?;
        self.judge_counts()?;
        self.judge_log()
            .map_err(|fault| format!("{fault}: {}", self.described()))
    }

    fn described(&self) -> String {
        format!(
            "request [{}] table [{}] frames {}",
            hex(&self.request),
            hex(&self.table_bytes),
            self.plain.frames
        )
    }

    fn serve(&mut self, rng: &mut Random) -> Result<(), String> {
        let m = self.plain.frames;
        let call = Call::next_frame(&self.table_bytes, &self.state, &rng.bytes(ENTRIES_LEN));
        let outcome = run(self.bus, &call)?;
        let expected = self.plain.next_frame(&self.table);
        let served = &outcome.buffers[1];
        if outcome.answer != expected.len() as i32 || *served != places(&expected) {
            return Err(format!(
                "frame {m} served {} [{}]: {}",
                outcome.answer,
                hex(served),
                self.described()
            ));
        }
        self.state = outcome.buffers[0].clone();
        let count = outcome.answer as usize;
        let entries = served[..2 * count].to_vec();
        self.log_frame(rng, m, &entries)
    }

    /// Lets the served entries run from the start of frame m, each later one g ticks after the one
    /// before ended.
    fn log_frame(&mut self, rng: &mut Random, m: i64, served: &[u8]) -> Result<(), String> {
        let cycle_now = m / self.table.rows.len() as i64;
        let mut now = m * self.table.f;
        for entry in served.chunks(2) {
            let carried = entry[1] >= 128;
            let q = if carried { cycle_now - 1 } else { cycle_now };
            if q < 0 {
                return Err(format!("a carried entry was served in frame {m}"));
            }
            let c = self.cycle.request.tasks[usize::from(entry[0])].c;
            let actual = if rng.chance(40) { c } else { rng.between(0, c) };
            let instance = (i64::from(entry[0]), i64::from(entry[1] % 128), q);
            let runs = self.log.entry(instance).or_default();
            runs.push((now, now + actual));
            now += actual + self.cycle.request.g;
        }
        self.silent_until.push(now);
        Ok(())
    }

    /// Reports an overrun of the task so many times, then judges the state and the counts.
    pub fn overrun(&mut self, task: u8, times: u32) -> Result<(), String> {
        for _ in 0..times {
            self.make_report(self.request.clone(), task, u32::MAX)?;
        }
        self.judge_state()?;
        self.judge_counts()
    }

    fn report(&mut self, rng: &mut Random) -> Result<(), String> {
        let mut bytes = self.request.clone();
        if rng.chance(15) {
            generate::damage(rng, &mut bytes);
        }
        let task = rng.below(self.cycle.request.tasks.len() + 2) as u8;
        let ticks = rng.pick(&[0, 1, 2, 5, 50, 65_536, u32::MAX]);
        self.make_report(bytes, task, ticks)
    }

    fn make_report(&mut self, bytes: Vec<u8>, task: u8, ticks: u32) -> Result<(), String> {
        let call = Call::report(&bytes, task, ticks, &self.state);
        let outcome = run(self.bus, &call)?;
        let expected = self.plain.report(&bytes, task, ticks);
        if outcome.answer != expected {
            return Err(format!(
                "report gave {} for {expected}: {}",
                outcome.answer,
                call.describe()
            ));
        }
        self.state = outcome.buffers[0].clone();
        self.reports.push(Report {
            request: bytes,
            task,
            ticks,
        });
        Ok(())
    }

    /// Row m mod F, mark exactly while m < F, counts v, and the free bytes as fresh set them.
    fn judge_state(&self) -> Result<(), String> {
        let count = self.table.rows.len() as i64;
        let mut expected = vec![0; STATE_LEN];
        let row = (self.plain.frames % count) as u16;
        expected[0..2].copy_from_slice(&row.to_le_bytes());
        expected[2] = u8::from(self.plain.frames < count);
        for (task, overruns) in self.plain.overruns.iter().enumerate() {
            expected[count_bytes(task)].copy_from_slice(&(*overruns as u16).to_le_bytes());
        }
        if self.state == expected {
            return Ok(());
        }
        Err(format!(
            "state [{}] expected [{}]: {}",
            hex(&self.state),
            hex(&expected),
            self.described()
        ))
    }

    /// The count of a task: its accepted reports above C in the list, or 65,535 if there were more.
    fn judge_counts(&self) -> Result<(), String> {
        for (task, count) in counts(&self.state).into_iter().enumerate() {
            let reports = self.reports.iter();
            let overran = reports.filter(|report| report.overran(task)).count();
            if usize::from(count) != overran.min(65_535) {
                return Err(format!(
                    "task {task} has count {count} after {overran} overruns: {}",
                    self.described()
                ));
            }
        }
        Ok(())
    }

    fn judge_log(&self) -> Result<(), String> {
        for (instance, runs) in &self.log {
            self.judge_runs(instance, runs)?;
        }
        self.judge_due_jobs()?;
        self.judge_pairs()?;
        self.judge_silence()?;
        self.judge_spacing()
    }

    fn job(&self, task: i64, number: i64) -> Option<&Job> {
        self.cycle
            .jobs
            .iter()
            .find(|job| job.task as i64 == task && job.number == number)
    }

    /// Once, not before the release, and ended by the due time.
    fn judge_runs(&self, instance: &Instance, runs: &[(i64, i64)]) -> Result<(), String> {
        let (task, number, q) = *instance;
        let job = self.job(task, number).ok_or("a served job is unknown")?;
        if runs.len() != 1 {
            return Err(format!("{instance:?} ran {} times", runs.len()));
        }
        let (start, end) = runs[0];
        if start < job.release + q * self.cycle.h {
            return Err(format!("{instance:?} started at {start}, before release"));
        }
        if end > job.due + q * self.cycle.h {
            return Err(format!("{instance:?} ended at {end}, after its due time"));
        }
        Ok(())
    }

    /// Every job due by the end of the last frame served has run.
    fn judge_due_jobs(&self) -> Result<(), String> {
        let end = self.plain.frames * self.table.f;
        for q in 0..=end / self.cycle.h {
            for job in &self.cycle.jobs {
                let due = job.due + q * self.cycle.h;
                let instance = (job.task as i64, job.number, q);
                if due <= end && !self.log.contains_key(&instance) {
                    return Err(format!("{instance:?} was due at {due} and has not run"));
                }
            }
        }
        Ok(())
    }

    /// Whenever job j of b has started, job j of a in the same cycle had ended by then.
    fn judge_pairs(&self) -> Result<(), String> {
        for &(a, b) in &self.cycle.request.pairs {
            for ((task, number, q), runs) in &self.log {
                if *task != b as i64 {
                    continue;
                }
                let before = (a as i64, *number, *q);
                let ended = self.log.get(&before).map(|runs| runs[0].1);
                if ended.is_none_or(|end| end > runs[0].0) {
                    return Err(format!("pair {a}, {b}: {before:?} had not ended"));
                }
            }
        }
        Ok(())
    }

    /// The silent ticks of a frame's last transfer are over when the next frame starts.
    fn judge_silence(&self) -> Result<(), String> {
        for (m, until) in (0..).zip(&self.silent_until) {
            if *until > (m + 1) * self.table.f {
                return Err(format!("frame {m} is silent until {until}, too late"));
            }
        }
        Ok(())
    }

    /// The job of the same task that is released one period later.
    fn successor(&self, (task, number, q): Instance) -> Instance {
        let period = self.cycle.request.tasks[task as usize].t;
        match self.cycle.h / period - (number + 1) {
            0 => (task, 0, q + 1),
            _ => (task, number + 1, q),
        }
    }

    /// The one that is released one period earlier; the first job of the first cycle has none.
    fn predecessor(&self, (task, number, q): Instance) -> Option<Instance> {
        let jobs = self.cycle.h / self.cycle.request.tasks[task as usize].t;
        match (number, q) {
            (0, 0) => None,
            (0, _) => Some((task, jobs - 1, q - 1)),
            _ => Some((task, number - 1, q)),
        }
    }

    /// Two successive jobs that both started, and when: each pair once.
    fn readings(&self) -> impl Iterator<Item = (Instance, Instance, i64, i64)> + '_ {
        self.log.iter().filter_map(|(first, runs)| {
            let second = self.successor(*first);
            let later = self.log.get(&second)?;
            Some((*first, second, runs[0].0, later[0].0))
        })
    }

    /// The starts of successive jobs of a task are as far apart as R-8 says, and no job between two
    /// that started is left out.
    fn judge_spacing(&self) -> Result<(), String> {
        for (first, second, one, two) in self.readings() {
            if !spaced(&self.cycle.request.tasks[first.0 as usize], two - one) {
                return Err(format!("{first:?} started at {one}, {second:?} at {two}"));
            }
        }
        for later in self.log.keys() {
            if let Some(earlier) = self.predecessor(*later) {
                if !self.log.contains_key(&earlier) {
                    return Err(format!("{later:?} started, and {earlier:?} did not"));
                }
            }
        }
        Ok(())
    }
}

/// "the starts of two successive jobs of one task are at least T − (D − C) and at most T + (D − C)
/// ticks apart"
pub fn spaced(task: &request::Task, apart: i64) -> bool {
    let slack = task.d - task.c;
    task.t - slack <= apart && apart <= task.t + slack
}

fn places(entries: &[Entry]) -> Vec<u8> {
    let mut bytes = vec![0; ENTRIES_LEN];
    for (place, entry) in entries.iter().enumerate() {
        bytes[2 * place] = entry.task as u8;
        bytes[2 * place + 1] = entry.job_byte();
    }
    bytes
}

/// What a number of flights covered.
#[derive(Clone, Copy, Debug, Default)]
pub struct Flights {
    pub requests: u64,
    pub left_out: u64,
    pub flights: u64,
    pub frames: u64,
    pub with_carry: u64,
    pub with_pairs: u64,
    pub with_silence: u64,
    /// Successive jobs that both started: all, those of two cycles, and those of the first cycle and
    /// the second.
    pub readings: u64,
    pub over_a_cycle: u64,
    pub over_the_first: u64,
}

/// So many requests are drawn for each flight that is asked for, and no more. Nine requests give
/// about five flights, so this is far more than are needed.
const REQUESTS_FOR_A_FLIGHT: u64 = 20;

/// Plans random requests and flies each table, and another plan of the same request. It ends
/// also where the library plans nothing.
pub fn fly_many(bus: &dyn Bus, seed: u64, flights: u64) -> Result<Flights, String> {
    let mut rng = Random::new(seed);
    let mut done = Flights::default();
    for _ in 0..flights * REQUESTS_FOR_A_FLIGHT {
        if done.flights >= flights {
            return Ok(done);
        }
        let request = generate::valid_bytes(&mut rng);
        if tries_within(&request, MOST_TRIES).is_none() {
            done.left_out += 1;
            continue;
        }
        done.requests += 1;
        fly_request(bus, &mut rng, &request, &mut done)?;
    }
    Err(format!("too few tables: {done:?}"))
}

/// Flies the planned table, if there is one, and another plan.
fn fly_request(
    bus: &dyn Bus,
    rng: &mut Random,
    request: &[u8],
    done: &mut Flights,
) -> Result<(), String> {
    let mut out = vec![0; 1024];
    let answer = bus.plan_freely(request, &mut out);
    if answer < 0 {
        return Ok(());
    }
    out.truncate(answer as usize);
    fly_one(bus, rng, request, &out, done)?;
    let cycle = read_cycle(request).map_err(|number| format!("planned, yet {number}"))?;
    match generate::some_plan(rng, &cycle, MOST_TRIES) {
        Some(table) => fly_one(bus, rng, request, &encode(&table), done),
        None => Ok(()),
    }
}

fn fly_one(
    bus: &dyn Bus,
    rng: &mut Random,
    request: &[u8],
    table: &[u8],
    done: &mut Flights,
) -> Result<(), String> {
    let mut flight = Flight::start(bus, request, table)?;
    let rows = flight.table.rows.len() as i64;
    let frames = rng.between(0, (4 * rows).min(600));
    flight.fly(rng, frames)?;
    done.flights += 1;
    done.frames += frames as u64;
    let carries = flight.table.rows.iter().flatten().any(|entry| entry.carry);
    done.with_carry += u64::from(carries);
    done.with_pairs += u64::from(!flight.cycle.request.pairs.is_empty());
    done.with_silence += u64::from(flight.cycle.request.g > 0);
    for (first, second, _, _) in flight.readings() {
        done.readings += 1;
        done.over_a_cycle += u64::from(first.2 != second.2);
        done.over_the_first += u64::from(first.2 == 0 && second.2 == 1);
    }
    Ok(())
}

/// One flight in which one task passes 65,535 overruns, with frames and other reports between and
/// after.
pub fn fly_long(bus: &dyn Bus, request: &[u8], task: u8, seed: u64) -> Result<(), String> {
    let mut rng = Random::new(seed);
    let mut out = vec![0; 1024];
    let answer = bus.plan_freely(request, &mut out);
    let length = usize::try_from(answer).map_err(|_| format!("refused {}", -answer))?;
    let mut flight = Flight::start(bus, request, &out[..length])?;
    for times in [3, 65_000, 600] {
        flight.overrun(task, times)?;
        flight.fly(&mut rng, 40)?;
    }
    let counts = counts(&flight.state);
    let mut others = (0..TASKS).filter(|other| *other != usize::from(task));
    if counts[usize::from(task)] == 65_535 && others.all(|other| counts[other] < 200) {
        return Ok(());
    }
    Err(format!("counts {counts:?}: {}", flight.described()))
}
