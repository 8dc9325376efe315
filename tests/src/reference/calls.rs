//! The calls of the library: for each row a function of its name, with the answer or the refusal.

use super::cut::{self, Cut};
use super::dispatch::{self, State};
use super::draft::{self, Draft};
use super::heater::{self, Link, Lost, Pair};
use super::join::joined;
use super::one_off::{earliest, Asked};
use super::phases::{self, Shift};
use super::table::{decode, encode, Entry};
use super::timeline;
use super::timer::Timer;
use super::{checked, decided, planned_within, request};
use crate::bus::RECORD_LEN;
use crate::bus::{count_bytes, counts, BAD_BUFFER, DRAFT_LEN, ENTRIES_LEN, STATE_LEN, TRIES_LEN};
use crate::bus::{put_counts, COUNTS_LEN};
use crate::bus::{CONTROL_AT, STATUS_AT, TIMER_LEN};
use crate::bus::{HEATER_LEN, LINK_BYTES};

type Answer = Result<i32, i32>;

/// Writes the bytes to the front of the buffer; the length, or 11.
fn write_out(bytes: &[u8], out: &mut [u8]) -> Answer {
    if out.len() < bytes.len() {
        return Err(11);
    }
    out[..bytes.len()].copy_from_slice(bytes);
    Ok(bytes.len() as i32)
}

/// 99 for a buffer of fewer bytes.
fn lent(buffer: &[u8], length: usize) -> Result<(), i32> {
    if buffer.len() < length {
        return Err(BAD_BUFFER);
    }
    Ok(())
}

pub fn plan(request: &[u8], allowance: u64, out: &mut [u8], tries: &mut [u8]) -> Answer {
    lent(tries, TRIES_LEN)?;
    let (chosen, count) = planned_within(request, allowance);
    tries[..TRIES_LEN].copy_from_slice(&count.to_le_bytes());
    write_out(&encode(&chosen?), out)
}

pub fn decide(request: &[u8], out: &mut [u8]) -> Answer {
    write_out(&encode(&decided(request)?), out)
}

pub fn phases(request: &[u8], task: u8, allowance: u64, counts: &mut [u8]) -> Answer {
    lent(counts, COUNTS_LEN)?;
    let ends = phases::ends(request, Shift { task, allowance })?;
    put_counts(phases::counts(&ends), counts);
    Ok(0)
}

pub fn check(request: &[u8], table: &[u8]) -> Answer {
    checked(request, table).map(|_| 0)
}

pub fn rewrite(request: &[u8], table: &[u8], out: &mut [u8]) -> Answer {
    write_out(&encode(&checked(request, table)?), out)
}

fn state_in(bytes: &[u8]) -> Result<State, i32> {
    lent(bytes, STATE_LEN)?;
    if bytes[2] > 1 {
        return Err(BAD_BUFFER);
    }
    Ok(State {
        row: i64::from(bytes[0]) + 256 * i64::from(bytes[1]),
        first_cycle: bytes[2] == 1,
        overruns: counts(bytes).map(i64::from),
    })
}

fn put_state(state: State, bytes: &mut [u8]) {
    bytes[0..2].copy_from_slice(&(state.row as u16).to_le_bytes());
    bytes[2] = u8::from(state.first_cycle);
    for (task, overruns) in state.overruns.iter().enumerate() {
        bytes[count_bytes(task)].copy_from_slice(&(*overruns as u16).to_le_bytes());
    }
}

pub fn fresh(state: &mut [u8]) -> Answer {
    lent(state, STATE_LEN)?;
    state[..STATE_LEN].fill(0);
    put_state(dispatch::fresh(), state);
    Ok(0)
}

fn put_entries(served: &[Entry], bytes: &mut [u8]) {
    bytes[..ENTRIES_LEN].fill(0);
    for (place, entry) in served.iter().enumerate() {
        bytes[2 * place] = entry.task as u8;
        bytes[2 * place + 1] = entry.job_byte();
    }
}

pub fn next_frame(table: &[u8], state: &mut [u8], entries: &mut [u8]) -> Answer {
    let before = state_in(state)?;
    lent(entries, ENTRIES_LEN)?;
    let read = decode(table).ok_or(12)?;
    let (served, after) = dispatch::next_frame(&read, before)?;
    put_state(after, state);
    put_entries(&served, entries);
    Ok(served.len() as i32)
}

pub fn report(request: &[u8], task: u8, ticks: u32, state: &mut [u8]) -> Answer {
    let before = state_in(state)?;
    let read = request::read(request)?;
    put_state(dispatch::report(&read, task, ticks, before)?, state);
    Ok(0)
}

pub fn join(first: &[u8], second: &[u8], out: &mut [u8]) -> Answer {
    write_out(&request::write(&joined(first, second)?), out)
}

pub fn cut(request: &[u8], task: u8, first: u16, out: &mut [u8]) -> Answer {
    let written = cut::cut(request, Cut { task, first })?;
    write_out(&request::write(&written), out)
}

pub fn one_off(request: &[u8], table: &[u8], length: u32, from: u32, until: u32) -> Answer {
    let asked = Asked {
        length,
        from,
        until,
    };
    earliest(request, table, asked).map(|frame| frame as i32)
}

fn put_draft(draft: &Draft, bytes: &mut [u8]) -> Answer {
    bytes[..DRAFT_LEN].copy_from_slice(&draft.bytes());
    Ok(0)
}

pub fn draft_start(request: &[u8], table: &[u8], draft: &mut [u8]) -> Answer {
    lent(draft, DRAFT_LEN)?;
    put_draft(&draft::start(request, table)?, draft)
}

pub fn draft_lift(request: &[u8], job: u8, draft: &mut [u8]) -> Answer {
    lent(draft, DRAFT_LEN)?;
    put_draft(&draft::lift(request, job, Draft::read(draft))?, draft)
}

pub fn draft_put(request: &[u8], job: u8, frame: u16, draft: &mut [u8]) -> Answer {
    lent(draft, DRAFT_LEN)?;
    put_draft(&draft::put(request, job, frame, Draft::read(draft))?, draft)
}

pub fn draft_write(request: &[u8], draft: &[u8], out: &mut [u8]) -> Answer {
    lent(draft, DRAFT_LEN)?;
    write_out(&encode(&draft::write(request, &Draft::read(draft))?), out)
}

fn timer_in(bytes: &[u8]) -> Result<Timer, i32> {
    lent(bytes, TIMER_LEN)?;
    let (control, status) = (bytes[CONTROL_AT], bytes[STATUS_AT]);
    if control > 3 || status > 7 {
        return Err(BAD_BUFFER);
    }
    Ok(Timer {
        state: state_in(bytes)?,
        control,
        status,
    })
}

fn put_timer(timer: Timer, bytes: &mut [u8]) {
    put_state(timer.state, bytes);
    bytes[CONTROL_AT] = timer.control;
    bytes[STATUS_AT] = timer.status;
}

pub fn timer_fresh(timer: &mut [u8]) -> Answer {
    lent(timer, TIMER_LEN)?;
    timer[..TIMER_LEN].fill(0);
    put_timer(Timer::fresh(), timer);
    Ok(0)
}

pub fn timer_read(address: u8, timer: &[u8]) -> Answer {
    timer_in(timer)?.read(address).map(i32::from)
}

pub fn timer_write(address: u8, value: u8, timer: &mut [u8]) -> Answer {
    let mut now = timer_in(timer)?;
    now.write(address, value)?;
    put_timer(now, timer);
    Ok(0)
}

pub fn timer_event(timer: &mut [u8]) -> Answer {
    let mut now = timer_in(timer)?;
    now.event();
    put_timer(now, timer);
    Ok(0)
}

pub fn timer_serve(table: &[u8], timer: &mut [u8], entries: &mut [u8]) -> Answer {
    let mut now = timer_in(timer)?;
    lent(entries, ENTRIES_LEN)?;
    let Some(served) = now.serve(table)? else {
        return Ok(0);
    };
    put_timer(now, timer);
    put_entries(&served, entries);
    Ok(served.len() as i32)
}

pub fn timer_report(request: &[u8], task: u8, ticks: u32, timer: &mut [u8]) -> Answer {
    let mut now = timer_in(timer)?;
    now.report(&request::read(request)?, task, ticks)?;
    put_timer(now, timer);
    Ok(0)
}

pub fn timer_line(timer: &[u8]) -> Answer {
    Ok(timer_in(timer)?.line().into())
}

fn link_in(bytes: &[u8]) -> Result<Link, i32> {
    lent(bytes, HEATER_LEN)?;
    let own = &bytes[LINK_BYTES];
    if own.iter().any(|byte| *byte > 1) {
        return Err(BAD_BUFFER);
    }
    Ok(Link {
        state: state_in(bytes)?,
        master: own[0] == 1,
        obeyed: own[1] == 1,
    })
}

fn put_link(link: Link, toggled: bool, answered: bool, bytes: &mut [u8]) {
    put_state(link.state, bytes);
    let own = [link.master, link.obeyed, toggled, answered];
    bytes[LINK_BYTES].copy_from_slice(&own.map(u8::from));
}

pub fn heater_fresh(heater: &mut [u8]) -> Answer {
    lent(heater, HEATER_LEN)?;
    heater[..HEATER_LEN].fill(0);
    put_link(heater::fresh(), false, false, heater);
    Ok(0)
}

pub fn heater_serve(
    request: &[u8],
    table: &[u8],
    a: u8,
    b: u8,
    lost: u8,
    heater: &mut [u8],
    entries: &mut [u8],
) -> Answer {
    let before = link_in(heater)?;
    lent(entries, ENTRIES_LEN)?;
    let done = heater::serve(request, table, Pair { a, b }, Lost::told(lost), before)?;
    put_link(done.link, done.toggled, done.answered, heater);
    put_entries(&done.served, entries);
    Ok(done.served.len() as i32)
}

pub fn timeline(request: &[u8], table: &[u8], records: &mut [u8]) -> Answer {
    let whole = timeline::records(request, table)?;
    if records.len() / RECORD_LEN < whole.len() {
        return Err(11);
    }
    for (place, record) in records.chunks_exact_mut(RECORD_LEN).zip(&whole) {
        place.copy_from_slice(&record.bytes());
    }
    Ok(whole.len() as i32)
}
