//! Pairs of a command and a reply, and one round of comparison: lists of frames that a heater link
//! serves, with losses, and with refused calls in between.

use crate::bus::{ENTRIES_LEN, HEATER_LEN, LINK_BYTES};
use crate::call::Call;
use crate::comparison::{Comparison, MOST_TRIES};
use crate::generate;
use crate::random::Random;
use crate::reference::heater::Pair;
use crate::reference::request::read;
use crate::reference::table::encode;
use crate::reference::{planned, tries_within};

const CALLS_OF_A_LIST: usize = 20;
const CALLS_OF_ANOTHER_TABLE: usize = 2;

/// A pair of the request, now and then turned, of one task, of two tasks that are in no pair, or of
/// tasks that the request does not have.
pub fn some_pair(rng: &mut Random, request: &[u8]) -> Pair {
    let (count, pairs) = match read(request) {
        Ok(read) => (read.tasks.len(), read.pairs),
        Err(_) => (3, Vec::new()),
    };
    let any = (rng.below(count), rng.below(count + 1));
    let (a, b) = if pairs.is_empty() {
        any
    } else {
        rng.pick(&pairs)
    };
    let (a, b) = match rng.below(30) {
        0 => (b, a),
        1 => (a, a),
        2 => (b, b),
        3 => any,
        4 => (a, count + rng.below(3)),
        5 => (a + 16, b + 16),
        6 => (a, 255),
        _ => (a, b),
    };
    Pair {
        a: a as u8,
        b: b as u8,
    }
}

/// What is told of losses: each is lost in so many of 100 cases. The bits that mean nothing are set now
/// and then.
pub fn some_loss(rng: &mut Random, percent: u64) -> u8 {
    let bits = u8::from(rng.chance(percent)) + 2 * u8::from(rng.chance(percent));
    if rng.chance(20) {
        return bits | rng.byte() << 2;
    }
    bits
}

/// The call that serves a frame.
pub fn call(
    request: &[u8],
    table: &[u8],
    pair: Pair,
    lost: u8,
    heater: &[u8],
    entries: &[u8],
) -> Call {
    Call::heater_serve(request, table, pair.a, pair.b, lost, heater, entries)
}

/// A request: mostly the first of some that has pairs, now and then a damaged one or one with many tasks.
fn one_request(rng: &mut Random) -> Vec<u8> {
    match rng.below(6) {
        0 => generate::crowded_bytes(rng),
        1 => generate::request_bytes(rng),
        _ => {
            let has_pairs = |bytes: &Vec<u8>| read(bytes).is_ok_and(|read| !read.pairs.is_empty());
            let some: Vec<Vec<u8>> = (0..4).map(|_| generate::valid_bytes(rng)).collect();
            let paired = some.iter().find(|bytes| has_pairs(bytes));
            paired.unwrap_or(&some[0]).clone()
        }
    }
}

/// One request, some tables, and a list of served frames for each that describes a plan.
pub fn round(comparison: &mut Comparison) -> Result<(), String> {
    let request = one_request(&mut comparison.rng);
    if tries_within(&request, MOST_TRIES).is_none() {
        comparison.tally.left_out += 1;
        return Ok(());
    }
    comparison.tally.requests += 1;
    let chosen = planned(&request).ok();
    let mut pool = generate::table_pool(&mut comparison.rng, &request, chosen.as_ref(), MOST_TRIES);
    pool.extend(chosen.as_ref().map(encode));
    let heater = comparison.fresh_heater()?;
    for table in &pool {
        comparison.link_list(&request, table, &pool, &heater)?;
    }
    Ok(())
}

impl Comparison<'_> {
    /// A list of calls, each with the heater that the last one left, now and then changed for one call.
    fn link_list(
        &mut self,
        request: &[u8],
        table: &[u8],
        others: &[Vec<u8>],
        fresh: &[u8],
    ) -> Result<(), String> {
        let pair = some_pair(&mut self.rng, request);
        let percent = self.rng.pick(&[0, 20, 50, 80]);
        let mut heater = fresh.to_vec();
        let mut calls = CALLS_OF_ANOTHER_TABLE;
        let mut made = 0;
        while made < calls {
            let mut lent = heater.clone();
            if self.rng.chance(8) {
                self.touch_heater(&mut lent);
            }
            let left = if self.rng.chance(85) {
                let lost = some_loss(&mut self.rng, percent);
                let entries = self.buffer(ENTRIES_LEN);
                self.heater_left(&call(request, table, pair, lost, &lent, &entries))?
            } else {
                self.heater_left_otherwise(request, others, pair, &lent)?
            };
            if let Some(after) = left {
                heater = after;
                calls = CALLS_OF_A_LIST;
            }
            made += 1;
        }
        Ok(())
    }

    /// What the call left in the heater, if it was not refused.
    fn heater_left(&mut self, call: &Call) -> Result<Option<Vec<u8>>, String> {
        let outcome = self.same(call)?;
        Ok((outcome.answer >= 0).then(|| outcome.buffers[0].clone()))
    }

    fn fresh_heater(&mut self) -> Result<Vec<u8>, String> {
        let length = self.rng.pick(&[HEATER_LEN, HEATER_LEN, HEATER_LEN + 9]);
        let heater = self.buffer(length);
        let outcome = self.same(&Call::heater_fresh(&heater))?;
        let short = self.rng.below(HEATER_LEN);
        let heater = self.buffer(short);
        self.same(&Call::heater_fresh(&heater))?;
        Ok(outcome.buffers[0].clone())
    }

    /// A call of the same list with something else in it: another pair, table or request, a short
    /// buffer, or other bytes in the entries.
    fn heater_left_otherwise(
        &mut self,
        request: &[u8],
        tables: &[Vec<u8>],
        pair: Pair,
        heater: &[u8],
    ) -> Result<Option<Vec<u8>>, String> {
        let (mut request, mut heater) = (request.to_vec(), heater.to_vec());
        let mut table = self.rng.pick(tables);
        let mut pair = pair;
        let mut room = ENTRIES_LEN;
        match self.rng.below(8) {
            0 => generate::damage(&mut self.rng, &mut request),
            1 => request = generate::request_bytes(&mut self.rng),
            2 => generate::damage(&mut self.rng, &mut table),
            3 => room = self.rng.below(ENTRIES_LEN),
            4 => heater.truncate(self.rng.below(HEATER_LEN)),
            5 => room += 7,
            _ => pair = some_pair(&mut self.rng, &request),
        }
        let (lost, entries) = (some_loss(&mut self.rng, 40), self.buffer(room));
        self.heater_left(&call(&request, &table, pair, lost, &heater, &entries))
    }

    /// Another heater than the last call left: any row, mark, bit or free byte.
    fn touch_heater(&mut self, heater: &mut [u8]) {
        match self.rng.below(8) {
            0 => heater[0] = self.rng.pick(&[0, 1, 2, 3, 255]),
            1 => heater[1] = self.rng.pick(&[0, 0, 1, 255]),
            2 => heater[2] = self.rng.pick(&[0, 1, 0, 1, 2, 255]),
            3 => heater[3..LINK_BYTES.start].fill(self.rng.byte()),
            4 => heater[LINK_BYTES.end..].fill(self.rng.byte()),
            5 => {
                let place = self.rng.below(LINK_BYTES.len());
                heater[LINK_BYTES][place] = self.rng.pick(&[2, 3, 128, 254, 255]);
            }
            _ => heater[LINK_BYTES].fill_with(|| self.rng.pick(&[0, 1])),
        }
    }
}
