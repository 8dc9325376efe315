//! One round of comparison with a timer: a list of register calls, each with the timer that the last one
//! left.

use crate::bus::{CONTROL_AT, ENTRIES_LEN, REGISTERS, STATUS_AT, TIMER_LEN, TIMER_USED};
use crate::call::Call;
use crate::comparison::Comparison;
use crate::registers::{put_counts, some_counts, Material, Step};
use crate::rounds::planning::after;

/// A request with tables and other bytes, and a list of register calls about them. After each of them one
/// register is read, and the line.
pub fn round(comparison: &mut Comparison) -> Result<(), String> {
    let material = Material::draw(&mut comparison.rng);
    comparison.tally.requests += 1;
    let mut timer = comparison.fresh_timer()?;
    let count = comparison.rng.between(10, 50);
    for step in material.steps(&mut comparison.rng, count) {
        if comparison.rng.chance(8) {
            comparison.touch_timer(&mut timer);
        }
        timer = comparison.step(&step, timer)?;
        let address = comparison.rng.below(REGISTERS) as u8;
        timer = comparison.step(&Step::Read(address), timer)?;
        timer = comparison.step(&Step::Line, timer)?;
    }
    Ok(())
}

impl Comparison<'_> {
    fn fresh_timer(&mut self) -> Result<Vec<u8>, String> {
        let length = self.rng.pick(&[TIMER_LEN, TIMER_LEN, TIMER_LEN + 7]);
        let timer = self.buffer(length);
        let outcome = self.same(&Call::timer_fresh(&timer))?;
        let short = self.rng.below(TIMER_LEN);
        let timer = self.buffer(short);
        self.same(&Call::timer_fresh(&timer))?;
        Ok(outcome.buffers[0].clone())
    }

    /// Another timer than the last call left: any row, mark, counts, control or status, other free bytes.
    fn touch_timer(&mut self, timer: &mut [u8]) {
        match self.rng.below(8) {
            0 => timer[0..2].copy_from_slice(&(self.rng.below(300) as u16).to_le_bytes()),
            1 => timer[0..2].fill(255),
            2 => timer[2] = self.rng.pick(&[0, 1, 0, 1, 2, 255]),
            3 => put_counts(some_counts(&mut self.rng), timer),
            4 => timer[TIMER_USED..].fill(self.rng.byte()),
            5 => timer[CONTROL_AT] = self.rng.pick(&[0, 1, 2, 3, 0, 1, 2, 3, 4, 7, 255]),
            _ => timer[STATUS_AT] = self.rng.pick(&[0, 1, 2, 3, 4, 5, 6, 7, 8, 9, 255]),
        }
        // A list goes on with a timer that most calls accept.
        if self.rng.chance(70) {
            timer[2] %= 2;
            timer[CONTROL_AT] %= 4;
            timer[STATUS_AT] %= 8;
        }
    }

    /// Makes the call, now and then with the same timer in a buffer that is too short, or with other
    /// entries than 32 bytes.
    fn step(&mut self, step: &Step, timer: Vec<u8>) -> Result<Vec<u8>, String> {
        let mut lent = timer.clone();
        if self.rng.chance(3) {
            lent.truncate(self.rng.below(TIMER_LEN));
        }
        let length = match self.rng.below(30) {
            0 => self.rng.below(ENTRIES_LEN),
            1 => ENTRIES_LEN + 5,
            _ => ENTRIES_LEN,
        };
        let entries = self.buffer(length);
        let outcome = self.same(&step.call(&lent, &entries))?;
        match outcome.buffers.is_empty() {
            true => Ok(timer),
            false => Ok(after(timer, &outcome)),
        }
    }
}
