//! Flights by the timer: the dispatcher's calls of a flight, each made by the registers. A frame is an
//! event and its serving; between them, before and after stand other register calls that a driver may make.

use std::sync::{Mutex, MutexGuard};

use super::{fly_many, Flights};
use crate::bus::{Bus, STATE_LEN, STATUS_AT, TIMER_LEN};
use crate::call::{hex, Call, Outcome};
use crate::lending::run;
use crate::random::Random;
use crate::reference::table::decode;
use crate::registers::{address, write, Step};

/// How many calls of each kind a driver made.
#[derive(Clone, Copy, Debug, Default)]
pub struct Driven {
    pub events: u64,
    pub refused_servings: u64,
    pub idle_servings: u64,
    pub reports: u64,
    pub writes: u64,
}

/// Run is set before the first event and stays set, and each event is followed by its serving before any
/// other event.
struct Driver {
    timer: Vec<u8>,
    rng: Random,
    driven: Driven,
    fault: Option<String>,
}

/// The tool, its dispatcher replaced by a driver of its timer.
struct ByTimer<'a> {
    bus: &'a dyn Bus,
    driver: Mutex<Driver>,
}

/// No call gives this number.
const FAULT: i32 = -1_000;

impl Driver {
    fn make(&mut self, bus: &dyn Bus, step: &Step, entries: &[u8]) -> Result<Outcome, String> {
        let outcome = run(bus, &step.call(&self.timer, entries))?;
        if let Some(timer) = outcome.buffers.first() {
            self.timer.clone_from(timer);
        }
        Ok(outcome)
    }

    /// The status byte is this, but for the overrun bit.
    fn status(&self, wanted: u8) -> Result<(), String> {
        match self.timer[STATUS_AT] & !2 == wanted {
            true => Ok(()),
            false => Err(format!("timer [{}]", hex(&self.timer))),
        }
    }

    /// Some writes while no event has come: anything, then run is set.
    fn start(&mut self, bus: &dyn Bus) -> Result<(), String> {
        let outcome = run(bus, &Call::timer_fresh(&self.rng.bytes(TIMER_LEN)))?;
        self.timer.clone_from(&outcome.buffers[0]);
        while self.rng.chance(50) {
            let step = write(&mut self.rng);
            self.make(bus, &step, &[])?;
        }
        let control = self.rng.pick(&[1, 3, 255]);
        self.make(bus, &Step::Write(0, control), &[])?;
        self.status(0)
    }

    /// A write that leaves run set, a read or a look at the line.
    fn other_call(&mut self, bus: &dyn Bus) -> Result<(), String> {
        let step = match self.rng.below(4) {
            0 => Step::Line,
            1 => Step::Read(address(&mut self.rng)),
            _ => match write(&mut self.rng) {
                Step::Write(0, value) => Step::Write(0, value | 1),
                step => step,
            },
        };
        self.driven.writes += u64::from(matches!(step, Step::Write(..)));
        self.make(bus, &step, &[]).map(|_| ())
    }

    /// A serving with none due answers 0 and changes nothing, whatever the table.
    fn idle_serving(&mut self, bus: &dyn Bus, table: &[u8]) -> Result<(), String> {
        let count = self.rng.below(20);
        let any = self.rng.bytes(count);
        let table = self.rng.pick(&[table.to_vec(), any]);
        let (timer, entries) = (self.timer.clone(), self.rng.bytes(40));
        let outcome = self.make(bus, &Step::Serve(table), &entries)?;
        self.driven.idle_servings += 1;
        match outcome.answer == 0 && outcome.buffers == [timer, entries] {
            true => Ok(()),
            false => Err(format!("an idle serving gave {outcome:?}")),
        }
    }

    /// A serving of the due frame with bytes that are no table is refused, and the frame waits on.
    fn refused_serving(&mut self, bus: &dyn Bus, table: &[u8]) -> Result<(), String> {
        let short = self.rng.below(table.len());
        let bytes = &table[..short];
        if decode(bytes).is_some() {
            return Ok(());
        }
        let (timer, entries) = (self.timer.clone(), self.rng.bytes(32));
        let outcome = self.make(bus, &Step::Serve(bytes.to_vec()), &entries)?;
        self.driven.refused_servings += 1;
        match outcome.answer == -12 && outcome.buffers == [timer, entries] {
            true => Ok(()),
            false => Err(format!("a refused serving gave {outcome:?}")),
        }
    }

    /// An event and its serving.
    fn frame(&mut self, bus: &dyn Bus, table: &[u8], entries: &mut [u8]) -> Result<i32, String> {
        while self.rng.chance(30) {
            match self.rng.chance(40) {
                true => self.idle_serving(bus, table)?,
                false => self.other_call(bus)?,
            }
        }
        self.make(bus, &Step::Event, &[])?;
        self.driven.events += 1;
        self.status(1)?;
        while self.rng.chance(30) {
            match self.rng.chance(40) {
                true => self.refused_serving(bus, table)?,
                false => self.other_call(bus)?,
            }
        }
        let outcome = self.make(bus, &Step::Serve(table.to_vec()), entries)?;
        entries.copy_from_slice(&outcome.buffers[1]);
        self.status(0).map(|()| outcome.answer)
    }

    fn report(&mut self, bus: &dyn Bus, step: &Step) -> Result<i32, String> {
        self.driven.reports += 1;
        self.make(bus, step, &[]).map(|outcome| outcome.answer)
    }
}

impl ByTimer<'_> {
    fn driver(&self) -> MutexGuard<'_, Driver> {
        self.driver.lock().expect("no fault in a thread")
    }

    /// What the driver does with its timer, whose first bytes are the state that the caller holds.
    fn drive(
        &self,
        state: &mut [u8],
        work: impl FnOnce(&mut Driver) -> Result<i32, String>,
    ) -> i32 {
        let mut driver = self.driver();
        match work(&mut driver) {
            Ok(answer) => {
                state.copy_from_slice(&driver.timer[..STATE_LEN]);
                answer
            }
            Err(fault) => {
                driver.fault = Some(fault);
                FAULT
            }
        }
    }
}

impl Bus for ByTimer<'_> {
    fn plan(&self, request: &[u8], allowance: u64, out: &mut [u8], tries: &mut [u8]) -> i32 {
        self.bus.plan(request, allowance, out, tries)
    }

    fn check(&self, request: &[u8], table: &[u8]) -> i32 {
        self.bus.check(request, table)
    }

    fn fresh(&self, state: &mut [u8]) -> i32 {
        self.drive(state, |driver| driver.start(self.bus).map(|()| 0))
    }

    fn next_frame(&self, table: &[u8], state: &mut [u8], entries: &mut [u8]) -> i32 {
        self.drive(state, |driver| driver.frame(self.bus, table, entries))
    }

    fn report(&self, request: &[u8], task: u8, ticks: u32, state: &mut [u8]) -> i32 {
        let step = Step::Report(request.to_vec(), task, ticks);
        self.drive(state, |driver| driver.report(self.bus, &step))
    }
}

/// Flights of planned tables, and of other plans of the same requests, by the timer.
pub fn fly_by_timer(bus: &dyn Bus, seed: u64, flights: u64) -> Result<(Flights, Driven), String> {
    let by_timer = ByTimer {
        bus,
        driver: Mutex::new(Driver {
            timer: Vec::new(),
            rng: Random::new(seed + 1),
            driven: Driven::default(),
            fault: None,
        }),
    };
    let flown = fly_many(&by_timer, seed, flights);
    let driver = by_timer.driver();
    match (flown, &driver.fault) {
        (Ok(flown), None) => Ok((flown, driver.driven)),
        (Err(fault), None) => Err(fault),
        (_, Some(fault)) => Err(fault.clone()),
    }
}
