//! The bus timer, seen as its eight registers. What a write does is said by two bytes for each of them.

use super::dispatch::{self, State, MOST_OVERRUNS};
use super::request::Request;
use super::table::{decode, Entry};
use crate::bus::REGISTERS;

/// The bits of register 0.
pub const RUN: u8 = 1;
pub const ENABLE: u8 = 2;

/// The bits of register 1.
pub const DUE: u8 = 1;
pub const OVERRUN: u8 = 2;
pub const MISSED: u8 = 4;

/// For each register the bits that become what is written, and those that a written 1 clears.
const TAKEN: [u8; REGISTERS] = [RUN | ENABLE, 0, 0, 0, 0, 0, 0, 0];
const CLEARED: [u8; REGISTERS] = [0, OVERRUN | MISSED, 0, 0, 0, 0, 0, 0];

#[derive(Clone, Copy, Debug, PartialEq, Eq)]
pub struct Timer {
    pub state: State,
    pub control: u8,
    pub status: u8,
}

impl Timer {
    pub fn fresh() -> Timer {
        Timer {
            state: dispatch::fresh(),
            control: 0,
            status: 0,
        }
    }

    pub fn registers(&self) -> [u8; REGISTERS] {
        let row = (self.state.row as u16).to_le_bytes();
        let sum: i64 = self.state.overruns.iter().sum();
        let sum = (sum.min(MOST_OVERRUNS) as u16).to_le_bytes();
        let (control, status) = (self.control, self.status);
        [control, status, row[0], row[1], sum[0], sum[1], 0, 0]
    }

    /// The register, or 29.
    pub fn read(&self, address: u8) -> Result<u8, i32> {
        let register = self.registers().get(usize::from(address)).copied();
        register.ok_or(29)
    }

    /// Writes to the register, or 29.
    pub fn write(&mut self, address: u8, value: u8) -> Result<(), i32> {
        let old = self.read(address)?;
        let at = usize::from(address);
        let mut registers = self.registers();
        registers[at] = (old & !TAKEN[at] | value & TAKEN[at]) & !(value & CLEARED[at]);
        [self.control, self.status] = [registers[0], registers[1]];
        Ok(())
    }

    pub fn event(&mut self) {
        let marked = if self.status & DUE == 0 { DUE } else { MISSED };
        if self.control & RUN != 0 {
            self.status |= marked;
        }
    }

    /// The entries served if a frame is due, or 12 or 15; nothing if none is due.
    pub fn serve(&mut self, table: &[u8]) -> Result<Option<Vec<Entry>>, i32> {
        if self.status & DUE == 0 {
            return Ok(None);
        }
        let read = decode(table).ok_or(12)?;
        let (served, next) = dispatch::next_frame(&read, self.state)?;
        self.state = next;
        self.status -= DUE;
        Ok(Some(served))
    }

    /// The report is counted, and marked if the ticks are above the task's C; or 16.
    pub fn report(&mut self, request: &Request, task: u8, ticks: u32) -> Result<(), i32> {
        self.state = dispatch::report(request, task, ticks, self.state)?;
        if i64::from(ticks) > request.tasks[usize::from(task)].c {
            self.status |= OVERRUN;
        }
        Ok(())
    }

    pub fn line(&self) -> bool {
        self.control & ENABLE != 0 && self.status != 0
    }
}
