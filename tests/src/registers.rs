//! Calls of the bus timer's registers, drawn about a request and its tables.

pub mod told;

use crate::bus::{count_bytes, TASKS};
use crate::call::Call;
use crate::comparison::MOST_TRIES;
use crate::generate;
use crate::random::Random;
use crate::reference::read_cycle;
use crate::rounds::planning::some_report;

/// A register call, but for the timer.
#[derive(Clone, Debug, PartialEq, Eq)]
pub enum Step {
    Read(u8),
    Write(u8, u8),
    Event,
    Serve(Vec<u8>),
    Report(Vec<u8>, u8, u32),
    Line,
}

impl Step {
    /// The call on a timer; the entries are lent to a serving.
    pub fn call(&self, timer: &[u8], entries: &[u8]) -> Call {
        match self {
            Step::Read(address) => Call::timer_read(*address, timer),
            Step::Write(address, value) => Call::timer_write(*address, *value, timer),
            Step::Event => Call::timer_event(timer),
            Step::Serve(table) => Call::timer_serve(table, timer, entries),
            Step::Report(request, task, ticks) => Call::timer_report(request, *task, *ticks, timer),
            Step::Line => Call::timer_line(timer),
        }
    }
}

/// An address: mostly of control or status, now and then of no register.
pub fn address(rng: &mut Random) -> u8 {
    match rng.below(12) {
        0 => rng.pick(&[8, 9, 16, 64, 65, 128, 129, 255]),
        1 | 2 => rng.below(8) as u8,
        3..=6 => 1,
        _ => 0,
    }
}

/// A byte to be written: mostly with the bits that have a name, to control mostly with run set.
fn value(rng: &mut Random, address: u8) -> u8 {
    match rng.below(6) {
        0 => rng.byte(),
        1 => rng.below(8) as u8,
        _ if address == 0 => rng.pick(&[1, 3, 3]),
        _ => rng.pick(&[0, 1, 2, 4, 6, 7]),
    }
}

pub fn write(rng: &mut Random) -> Step {
    let address = address(rng);
    Step::Write(address, value(rng, address))
}

/// What the calls of a list are about: a request, its tables and other bytes, the usual table first.
pub struct Material {
    pub request: Vec<u8>,
    pub tables: Vec<Vec<u8>>,
}

impl Material {
    /// Of a valid request, or now and then of any bytes.
    pub fn draw(rng: &mut Random) -> Material {
        let request = match rng.below(10) {
            0 => generate::request_bytes(rng),
            _ => generate::valid_bytes(rng),
        };
        let cycle = read_cycle(&request).ok();
        let plan = cycle.and_then(|cycle| generate::some_plan(rng, &cycle, MOST_TRIES));
        let tables = generate::table_pool(rng, &request, plan.as_ref(), MOST_TRIES);
        Material { request, tables }
    }

    pub fn report(&self, rng: &mut Random) -> Step {
        let (request, task, ticks) = some_report(rng, &self.request);
        Step::Report(request, task, ticks)
    }

    /// A serving, mostly with the usual table.
    pub fn serve(&self, rng: &mut Random) -> Step {
        let table = match rng.below(5) {
            0 => rng.pick(&self.tables),
            _ => self.tables[0].clone(),
        };
        Step::Serve(table)
    }

    /// A list of so many calls; mostly the first one sets run.
    pub fn steps(&self, rng: &mut Random, count: i64) -> Vec<Step> {
        let starts = rng.chance(75).then(|| Step::Write(0, rng.pick(&[1, 3, 3])));
        let others = (0..count).map(|_| self.step(rng));
        starts.into_iter().chain(others).collect()
    }

    /// Any call.
    fn step(&self, rng: &mut Random) -> Step {
        match rng.below(20) {
            0..=4 => Step::Event,
            5..=9 => self.serve(rng),
            10..=13 => self.report(rng),
            14..=16 => write(rng),
            17 | 18 => Step::Read(address(rng)),
            _ => Step::Line,
        }
    }
}

/// Counts whose sum is about 65,535, or any.
pub fn some_counts(rng: &mut Random) -> [u16; TASKS] {
    let mut counts = [0; TASKS];
    match rng.below(4) {
        0 => counts[rng.below(TASKS)] = rng.pick(&[65_533, 65_534, 65_535]),
        1 => counts.fill_with(|| rng.pick(&[4_095, 4_096, 4_097])),
        2 => counts.fill_with(|| rng.pick(&[0, 255, 256, 65_533, 65_534, 65_535])),
        _ => counts.fill_with(|| rng.below(5) as u16),
    }
    counts
}

/// Puts counts into the bytes of a state or a timer.
pub fn put_counts(counts: [u16; TASKS], bytes: &mut [u8]) {
    for (task, count) in counts.into_iter().enumerate() {
        bytes[count_bytes(task)].copy_from_slice(&count.to_le_bytes());
    }
}
