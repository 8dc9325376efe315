//! A request, and the calls that can be made about it alone: it is planned, tables are checked and
//! rewritten, and a list of calls is made with the dispatcher's state.

use crate::bus::{count_bytes, ENTRIES_LEN, STATE_LEN, STATE_USED, TASKS, TRIES_LEN};
use crate::call::{Call, Outcome};
use crate::comparison::{Comparison, MOST_TRIES};
use crate::generate;
use crate::random::Random;
use crate::reference::table::{encode, Table};
use crate::reference::{planned, tries_within};

/// Allowances about the tries that the full search makes, and some that are the same in fewer bits.
pub fn allowances(full: u64) -> Vec<u64> {
    let about = [full.saturating_sub(1), full, full + 1];
    let high = [1 << 16, 1 << 32, u64::MAX];
    [&[0, 1], &about[..], &high[..]].concat()
}

/// One request, what is written for it, and a list of calls.
pub fn round(comparison: &mut Comparison) -> Result<(), String> {
    let request = generate::request_bytes(&mut comparison.rng);
    let Some(full) = tries_within(&request, MOST_TRIES) else {
        comparison.tally.left_out += 1;
        return comparison.ended(&request);
    };
    comparison.tally.requests += 1;
    let chosen = planned(&request).ok();
    comparison.plans(&request, chosen.as_ref(), full)?;
    let pool = generate::table_pool(&mut comparison.rng, &request, chosen.as_ref(), MOST_TRIES);
    comparison.checks(&request, &pool)?;
    comparison.call_list(&request, &pool)
}

impl Comparison<'_> {
    /// Plans with so many tries allowed and so much room for the table. The buffer of the count is now
    /// and then longer than it need be, or too short.
    pub(crate) fn plan(
        &mut self,
        request: &[u8],
        allowance: u64,
        room: usize,
    ) -> Result<(), String> {
        let length = match self.rng.below(16) {
            0 => self.rng.below(TRIES_LEN),
            1..=3 => TRIES_LEN + 1 + self.rng.below(20),
            _ => TRIES_LEN,
        };
        let (out, tries) = (self.buffer(room), self.buffer(length));
        let call = Call::plan(request, allowance, &out, &tries);
        self.same(&call).map(|_| ())
    }

    /// Plans with every try allowed; a search that is too long for its end, with so many as it is
    /// followed.
    pub(crate) fn plan_as_far(&mut self, request: &[u8]) -> Result<(), String> {
        let allowance = match tries_within(request, MOST_TRIES) {
            Some(_) => u64::MAX,
            None => {
                self.tally.left_out += 1;
                MOST_TRIES
            }
        };
        self.plan(request, allowance, 600)
    }

    /// Each room with enough tries, and each allowance with some room.
    fn plans(&mut self, request: &[u8], chosen: Option<&Table>, full: u64) -> Result<(), String> {
        let length = chosen.map_or(0, |table| encode(table).len());
        let rooms = self.rooms(length);
        for room in &rooms {
            let allowance = self.rng.pick(&[full, full + 1, u64::MAX]);
            self.plan(request, allowance, *room)?;
        }
        for allowance in allowances(full) {
            let room = self.rng.pick(&rooms);
            self.plan(request, allowance, room)?;
        }
        Ok(())
    }

    /// A search that is not followed to its end, with fewer tries allowed than it needs.
    fn ended(&mut self, request: &[u8]) -> Result<(), String> {
        let any = self.rng.below(MOST_TRIES as usize) as u64;
        for allowance in [0, 1, any, MOST_TRIES] {
            let room = self.rng.pick(&[0, 20, 600]);
            self.plan(request, allowance, room)?;
        }
        Ok(())
    }

    fn checks(&mut self, request: &[u8], pool: &[Vec<u8>]) -> Result<(), String> {
        for table in pool {
            self.same(&Call::check(request, table))?;
            let room = *self.rng.pick(&[&table.len(), &(table.len() + 9)]);
            self.rewrite(request, table, room)?;
        }
        let table = self.rng.pick(pool);
        let short = table.len().saturating_sub(1);
        self.rewrite(request, &table, short)
    }

    fn rewrite(&mut self, request: &[u8], table: &[u8], room: usize) -> Result<(), String> {
        let out = self.buffer(room);
        let call = Call::rewrite(request, table, &out);
        self.same(&call).map(|_| ())
    }

    /// A list of next-frame and report calls, each with the state that the last one left.
    fn call_list(&mut self, request: &[u8], pool: &[Vec<u8>]) -> Result<(), String> {
        let table = pool[0].clone();
        let mut state = self.fresh()?;
        for _ in 0..self.rng.between(8, 40) {
            if self.rng.chance(4) {
                self.touch_state(&mut state);
            }
            state = if self.rng.chance(70) {
                let used = self.usual_or(&table, pool);
                self.next_frame(used, state)?
            } else {
                self.report(request, state)?
            };
        }
        Ok(())
    }

    fn fresh(&mut self) -> Result<Vec<u8>, String> {
        let length = self.rng.pick(&[STATE_LEN, STATE_LEN, STATE_LEN + 7]);
        let state = self.buffer(length);
        let outcome = self.same(&Call::fresh(&state))?;
        let short = self.rng.below(STATE_LEN);
        let state = self.buffer(short);
        self.same(&Call::fresh(&state))?;
        Ok(outcome.buffers[0].clone())
    }

    /// Now and then another state than the last call left: any row, mark or counts, other free bytes.
    fn touch_state(&mut self, state: &mut [u8]) {
        match self.rng.below(5) {
            0 => state[0..2].copy_from_slice(&(self.rng.below(300) as u16).to_le_bytes()),
            1 => {
                for task in 0..TASKS {
                    let count = self.rng.pick(&[0, 255, 256, 65_533, 65_534, 65_535_u16]);
                    state[count_bytes(task)].copy_from_slice(&count.to_le_bytes());
                }
            }
            2 => state[2] = self.rng.pick(&[0, 1, 0, 1, 2, 255]),
            3 => state[STATE_USED..].fill(self.rng.byte()),
            _ => {
                state[0..2].fill(255);
                state[2] = 0;
            }
        }
    }

    fn usual_or(&mut self, usual: &[u8], others: &[Vec<u8>]) -> Vec<u8> {
        if self.rng.chance(93) {
            usual.to_vec()
        } else {
            self.rng.pick(others)
        }
    }

    /// The same state in a buffer that is too short, in 3 of 100 cases.
    fn lent_state(&mut self, state: &[u8]) -> Vec<u8> {
        let mut lent = state.to_vec();
        if self.rng.chance(3) {
            lent.truncate(self.rng.below(STATE_LEN));
        }
        lent
    }

    fn next_frame(&mut self, table: Vec<u8>, state: Vec<u8>) -> Result<Vec<u8>, String> {
        let length = match self.rng.below(30) {
            0 => self.rng.below(ENTRIES_LEN),
            1 => ENTRIES_LEN + 5,
            _ => ENTRIES_LEN,
        };
        let (lent, entries) = (self.lent_state(&state), self.buffer(length));
        let outcome = self.same(&Call::next_frame(&table, &lent, &entries))?;
        Ok(after(state, &outcome))
    }

    fn report(&mut self, request: &[u8], state: Vec<u8>) -> Result<Vec<u8>, String> {
        let (bytes, task, ticks) = some_report(&mut self.rng, request);
        let lent = self.lent_state(&state);
        let outcome = self.same(&Call::report(&bytes, task, ticks, &lent))?;
        Ok(after(state, &outcome))
    }
}

/// A report: a request, mostly this one, a task number, mostly one that it has, and ticks.
pub fn some_report(rng: &mut Random, request: &[u8]) -> (Vec<u8>, u8, u32) {
    let mut bytes = request.to_vec();
    match rng.below(10) {
        0 => generate::damage(rng, &mut bytes),
        1 => bytes = generate::noise(rng),
        2 => bytes = generate::request_bytes(rng),
        _ => {}
    }
    let task = if rng.chance(85) {
        rng.below(usize::from(bytes.first().map_or(1, |n| (*n).clamp(1, 16)))) as u8
    } else {
        rng.byte()
    };
    let ticks = ticks(rng, &bytes, task);
    (bytes, task, ticks)
}

/// Ticks about the C that the bytes give the task, or far above.
fn ticks(rng: &mut Random, request: &[u8], task: u8) -> u32 {
    let at = 1 + 8 * usize::from(task);
    let c = match request.get(at..at + 2) {
        Some(two) => u32::from(two[0]) + 256 * u32::from(two[1]),
        None => 5,
    };
    match rng.below(8) {
        0 => u32::MAX,
        1 => rng.draw() as u32,
        2 => c + 65_536,
        3 => c.saturating_sub(1),
        4 => 0,
        5 => c,
        _ => c + 1,
    }
}

/// The state that the list goes on with: what the call left, if it was lent whole.
pub(super) fn after(state: Vec<u8>, outcome: &Outcome) -> Vec<u8> {
    if outcome.buffers[0].len() == state.len() {
        outcome.buffers[0].clone()
    } else {
        state
    }
}
