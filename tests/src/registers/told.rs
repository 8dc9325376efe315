//! What the registers must tell after any list of calls, by the list alone: each status bit is looked for
//! among the calls made so far. The dispatcher is the tool's own, fed just the calls that the timer is to
//! make of it.

use super::{put_counts, some_counts, Material, Step};
use crate::bus::{counts, Bus, ENTRIES_LEN, REGISTERS, STATE_LEN, TASKS, TIMER_LEN, TIMER_USED};
use crate::call::{hex, Call, Outcome};
use crate::lending::run;
use crate::random::Random;
use crate::reference::request::read;

/// A call as it was made: its answer, whether run was set and a frame due before it, and the task of which
/// it is an accepted report above C.
struct Made {
    step: Step,
    answer: i32,
    run: bool,
    due: bool,
    overran: Option<usize>,
}

fn overran(step: &Step) -> Option<usize> {
    let Step::Report(request, task, ticks) = step else {
        return None;
    };
    let (task, tasks) = (usize::from(*task), read(request).ok()?.tasks);
    (i64::from(*ticks) > tasks.get(task)?.c).then_some(task)
}

impl Made {
    /// "A timer event with run set makes a frame due"
    fn makes_due(&self) -> bool {
        self.step == Step::Event && self.run
    }

    /// "or marks a miss if one is due already"
    fn marks_miss(&self) -> bool {
        self.makes_due() && self.due
    }

    fn serves(&self) -> bool {
        matches!(self.step, Step::Serve(_)) && self.answer >= 0
    }

    /// "A report above C sets bit 1."
    fn marks_overrun(&self) -> bool {
        self.overran.is_some()
    }

    /// "writing a 1 clears bit 1 or 2"
    fn clears(&self, bit: u32) -> bool {
        matches!(self.step, Step::Write(1, value) if value >> bit & 1 == 1)
    }
}

/// What a number of lists covered.
#[derive(Clone, Copy, Debug, Default)]
pub struct Covered {
    pub calls: u64,
    pub ignored_events: u64,
    pub misses: u64,
    pub served: u64,
    pub refused_servings: u64,
    pub idle_servings: u64,
    /// Idle servings with bytes that are no table, as far as the tool's own dispatcher says.
    pub idle_without_table: u64,
    pub overruns: u64,
    /// Overruns of a task whose count stood at 65,535.
    pub overruns_at_most: u64,
    pub cleared_misses: u64,
    pub full_sums: u64,
    pub lines_on: u64,
}

/// A list of calls as far as it was made.
struct Program<'a> {
    bus: &'a dyn Bus,
    made: Vec<Made>,
    timer: Vec<u8>,
    /// The bytes of the dispatcher that is beside the timer.
    state: Vec<u8>,
    /// The counts and the free bytes with which the list began.
    counts: [u16; TASKS],
    free: Vec<u8>,
}

impl<'a> Program<'a> {
    /// A fresh timer, in which the counts may be others and the free bytes any.
    fn start(bus: &'a dyn Bus, rng: &mut Random) -> Result<Program<'a>, String> {
        let outcome = run(bus, &Call::timer_fresh(&rng.bytes(TIMER_LEN)))?;
        let mut timer = outcome.buffers[0].clone();
        let mut state = vec![0xEE; STATE_LEN];
        if outcome.answer != 0 || bus.fresh(&mut state) != 0 {
            return Err("fresh refused".to_string());
        }
        if timer[TIMER_USED..].iter().any(|byte| *byte != 0) {
            return Err(format!("a fresh timer [{}]", hex(&timer)));
        }
        if rng.chance(50) {
            let counts = some_counts(rng);
            put_counts(counts, &mut timer);
            put_counts(counts, &mut state);
            timer[TIMER_USED..].fill(rng.byte());
        }
        let program = Program {
            bus,
            made: Vec::new(),
            counts: counts(&state),
            free: timer[TIMER_USED..].to_vec(),
            timer,
            state,
        };
        program.judge()?;
        Ok(program)
    }

    /// The last byte written to control, or 0.
    fn control(&self) -> u8 {
        let mut writes = self.made.iter().rev();
        let last = writes.find_map(|made| match made.step {
            Step::Write(0, value) => Some(value),
            _ => None,
        });
        last.unwrap_or(0)
    }

    /// Some call did this, and no later one did that.
    fn since(&self, this: impl Fn(&Made) -> bool, that: impl Fn(&Made) -> bool) -> bool {
        let behind = self.made.iter().rposition(&that).map_or(0, |last| last + 1);
        self.made[behind..].iter().any(this)
    }

    fn due(&self) -> bool {
        self.since(Made::makes_due, Made::serves)
    }

    fn status(&self) -> u8 {
        let overrun = self.since(Made::marks_overrun, |made| made.clears(1));
        let missed = self.since(Made::marks_miss, |made| made.clears(2));
        u8::from(self.due()) + 2 * u8::from(overrun) + 4 * u8::from(missed)
    }

    /// The count of a task: as it was, and one for each overrun of the list, up to 65,535.
    fn count(&self, task: usize) -> usize {
        let made = self.made.iter().filter(|made| made.overran == Some(task));
        (usize::from(self.counts[task]) + made.count()).min(65_535)
    }

    fn registers(&self) -> [u8; REGISTERS] {
        let sum: usize = (0..TASKS).map(|task| self.count(task)).sum();
        let sum = sum.min(65_535).to_le_bytes();
        let (row_low, row_high) = (self.state[0], self.state[1]);
        let control = self.control() & 3;
        let status = self.status();
        [control, status, row_low, row_high, sum[0], sum[1], 0, 0]
    }

    /// What the call must answer, and what the entries must hold then. The dispatcher beside the timer
    /// goes along.
    fn expected(&mut self, step: &Step, entries: &mut [u8]) -> i32 {
        let registers = self.registers();
        match step {
            Step::Read(address) => match registers.get(usize::from(*address)) {
                Some(byte) => i32::from(*byte),
                None => -29,
            },
            Step::Write(address, _) if usize::from(*address) >= REGISTERS => -29,
            Step::Write(..) | Step::Event => 0,
            Step::Serve(table) if self.due() => {
                self.bus.next_frame(table, &mut self.state, entries)
            }
            Step::Serve(_) => 0,
            Step::Report(request, task, ticks) => {
                self.bus.report(request, *task, *ticks, &mut self.state)
            }
            Step::Line => i32::from(self.control() & 2 != 0 && registers[1] != 0),
        }
    }

    /// Makes the call and judges its answer, its entries and the timer after it.
    fn make(&mut self, step: Step, entries: Vec<u8>) -> Result<(), String> {
        let call = step.call(&self.timer, &entries);
        let Outcome { answer, buffers } = run(self.bus, &call)?;
        let (run_set, due) = (self.control() & 1 == 1, self.due());
        let mut wanted = entries;
        let expected = self.expected(&step, &mut wanted);
        let mut buffers = buffers.into_iter();
        if let Some(timer) = buffers.next() {
            self.timer = timer;
        }
        let written = buffers.next();
        if answer != expected || written.is_some_and(|bytes| bytes != wanted) {
            return Err(format!("{answer} for {expected}: {}", call.describe()));
        }
        self.made.push(Made {
            overran: overran(&step),
            step,
            answer,
            run: run_set,
            due,
        });
        let judged = self.judge();
        judged.map_err(|fault| format!("{fault}, after {}", call.describe()))
    }

    /// The eight registers, the line, and the bytes of the timer.
    fn judge(&self) -> Result<(), String> {
        let expected = self.registers();
        let addresses = 0..REGISTERS as u8;
        let told = addresses.map(|address| self.bus.timer_read(address, &self.timer));
        let told: Vec<i32> = told.collect();
        if told != expected.map(i32::from) {
            return Err(format!("registers {told:?} for {expected:?}"));
        }
        let on = self.control() & 2 != 0 && expected[1] != 0;
        if self.bus.timer_line(&self.timer) != i32::from(on) {
            return Err(format!("line is not {on} with registers {told:?}"));
        }
        let bytes = [&self.state[..], &expected[..2], &self.free].concat();
        match self.timer == bytes {
            true => Ok(()),
            false => Err(format!("[{}] for [{}]", hex(&self.timer), hex(&bytes))),
        }
    }

    fn cover(&self, covered: &mut Covered) {
        for made in &self.made {
            covered.calls += 1;
            covered.overruns += u64::from(made.marks_overrun());
            covered.misses += u64::from(made.marks_miss());
            match &made.step {
                Step::Event if !made.run => covered.ignored_events += 1,
                Step::Serve(_) if made.answer < 0 => covered.refused_servings += 1,
                Step::Serve(_) if made.due => covered.served += 1,
                Step::Serve(table) => {
                    let (mut state, mut entries) = ([0; STATE_LEN], [0; ENTRIES_LEN]);
                    let none = self.bus.next_frame(table, &mut state, &mut entries) == -12;
                    covered.idle_servings += 1;
                    covered.idle_without_table += u64::from(none);
                }
                Step::Line => covered.lines_on += made.answer as u64,
                _ => {}
            }
        }
    }
}

/// One list of calls about the same request and tables.
fn run_one(bus: &dyn Bus, rng: &mut Random, covered: &mut Covered) -> Result<(), String> {
    let material = Material::draw(rng);
    let mut program = Program::start(bus, rng)?;
    let count = rng.between(0, 60);
    for step in material.steps(rng, count) {
        let entries = rng.bytes(ENTRIES_LEN);
        let (before, full) = (program.status(), counts(&program.state));
        program.make(step, entries)?;
        let last = program.made.last().expect("it was made");
        let at_most = last.overran.is_some_and(|task| full[task] == 65_535);
        covered.overruns_at_most += u64::from(at_most);
        covered.cleared_misses += u64::from(before > 3 && program.status() < 4);
        covered.full_sums += u64::from(program.registers()[4..6] == [255, 255]);
    }
    program.cover(covered);
    Ok(())
}

/// So many lists of register calls from a seed. Every answer, the eight registers, the line and every byte
/// of the timer are what the list says.
pub fn run_many(bus: &dyn Bus, seed: u64, programs: u64) -> Result<Covered, String> {
    let mut rng = Random::new(seed);
    let mut covered = Covered::default();
    for program in 0..programs {
        let done = run_one(bus, &mut rng, &mut covered);
        done.map_err(|fault| format!("seed {seed}, list {program}: {fault}"))?;
    }
    Ok(covered)
}
