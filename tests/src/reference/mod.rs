//! A second planner, check, rewriter and dispatcher, written from the scope paper's words:
//! plain, slow and obvious.

pub mod calls;
pub mod check;
pub mod cut;
pub mod cycle;
pub mod dispatch;
pub mod draft;
pub mod exact;
pub mod heater;
pub mod join;
pub mod listing;
pub mod model;
pub mod one_off;
pub mod phases;
pub mod printed;
pub mod request;
pub mod search;
pub mod table;
pub mod timeline;
pub mod timer;
pub mod tries;

use std::cell::RefCell;

use crate::bus::Bus;
use cycle::Cycle;
use search::{Choice, Effort};
use table::Table;

/// The request within the limits that the bytes hold, or 1 to 8 or 17.
pub fn read_cycle(bytes: &[u8]) -> Result<Cycle, i32> {
    cycle::of(request::read(bytes)?)
}

/// The chosen table, or 1 to 10 or 17.
pub fn planned(bytes: &[u8]) -> Result<Table, i32> {
    let cycle = read_cycle(bytes)?;
    match search::choose(&cycle, &mut Effort::unlimited()) {
        Choice::Plan { f, frames } => Ok(table::of_plan(&cycle, f, &frames)),
        Choice::Refused(number) => Err(number),
        Choice::TooHard => unreachable!("the effort was unlimited"),
    }
}

/// A request with what it was decided to.
type Decision = (Vec<u8>, Result<Table, i32>);

thread_local! {
    /// The last one, since a request is mostly asked for again with another buffer.
    static LAST: RefCell<Option<Decision>> = const { RefCell::new(None) };
}

/// The same, however long the search would be.
pub fn decided(bytes: &[u8]) -> Result<Table, i32> {
    LAST.with_borrow_mut(|last| match last {
        Some((request, answer)) if request == bytes => answer.clone(),
        _ => {
            let answer = decision(bytes);
            *last = Some((bytes.to_vec(), answer.clone()));
            answer
        }
    })
}

fn decision(bytes: &[u8]) -> Result<Table, i32> {
    let cycle = read_cycle(bytes)?;
    match exact::choose(&cycle) {
        Choice::Plan { f, frames } => Ok(table::of_plan(&cycle, f, &frames)),
        Choice::Refused(number) => Err(number),
        Choice::TooHard => unreachable!("it knows no limit"),
    }
}

/// The tries that planning needs, if at most `limit`; 0 for a request refused before the search.
pub fn tries_within(bytes: &[u8], limit: u64) -> Option<u64> {
    match read_cycle(bytes) {
        Ok(cycle) => tries::within(&cycle, limit),
        Err(_) => Some(0),
    }
}

/// The tries that the programs allow which plan a request from standard input.
pub const PROGRAM_TRIES: u64 = 10_000_000;

/// The chosen table, or 1 to 10, 17 or 23, with so many tries allowed; and the count of tries.
pub fn planned_within(bytes: &[u8], allowance: u64) -> (Result<Table, i32>, u64) {
    match tries_within(bytes, allowance) {
        Some(full) => (planned(bytes), full),
        None => (Err(23), allowance),
    }
}

/// What the program `plan` prints for a request.
pub fn listing(bytes: &[u8]) -> String {
    match planned_within(bytes, PROGRAM_TRIES).0 {
        Ok(table) => {
            let cycle = read_cycle(bytes).expect("it was planned");
            listing::of_table(&cycle, &table)
        }
        Err(number) => listing::of_refusal(number),
    }
}

/// The table of the plan that request and table describe, or 1 to 8, 17, 12 to 14.
fn checked(request: &[u8], table: &[u8]) -> Result<Table, i32> {
    let cycle = read_cycle(request)?;
    let read = table::decode(table).ok_or(12)?;
    let frames = check::plan_in(&cycle, &read)?;
    Ok(table::of_plan(&cycle, read.f, &frames))
}

/// The answer of a call, a refusal as its number negated.
pub fn answer(result: Result<i32, i32>) -> i32 {
    match result {
        Ok(value) => value,
        Err(number) => -number,
    }
}

/// The tool that answers every call as the reference does.
pub struct Reference;

impl Bus for Reference {}
