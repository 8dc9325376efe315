//! Requests with a task whose phases are counted, and one round of comparison with them.

use crate::bus::COUNTS_LEN;
use crate::call::Call;
use crate::comparison::Comparison;
use crate::generate;
use crate::random::Random;
use crate::reference::cycle::Cycle;
use crate::reference::phases::{with_phase, Shift};
use crate::reference::{read_cycle, tries_within};
use crate::rounds::planning::allowances;

const SHIFTS_OF_A_REQUEST: usize = 4;

/// A task is shifted if its phases times the jobs of a cycle are no more: both sides plan each phase.
const MOST_JOBS_PLANNED: i64 = 2_000;

/// Where the search of a phase needs more tries, no more are allowed.
const MOST_TRIES: u64 = 300;

fn one_request(rng: &mut Random) -> Vec<u8> {
    let mut bytes = match rng.below(10) {
        0..=4 => generate::short_bytes(rng),
        5 => generate::lone_bytes(rng),
        6 => generate::crowded_bytes(rng),
        7 => generate::loose_bytes(rng),
        _ => return generate::request_bytes(rng),
    };
    if rng.chance(15) {
        generate::damage_a_field(rng, &mut bytes);
    }
    bytes
}

/// A task number: mostly of a task with few phases, now and then none of the request's.
fn task(rng: &mut Random, cycle: &Cycle) -> usize {
    let tasks = &cycle.request.tasks;
    let few = |number: &usize| tasks[*number].t * cycle.jobs.len() as i64 <= MOST_JOBS_PLANNED;
    let short: Vec<usize> = (0..tasks.len()).filter(few).collect();
    let n = tasks.len();
    match rng.below(16) {
        0 => rng.pick(&[n, n + 1, 15.max(n), 16, 255]),
        1 => rng.below(n) + 16 * (1 + rng.below(15)),
        _ if short.is_empty() => n,
        _ => rng.pick(&short),
    }
}

/// An allowance about the tries that the search of some phase makes; a large one if no search is long.
fn allowance(rng: &mut Random, bytes: &[u8], task: usize, period: i64) -> u64 {
    let tries = |phase: i64| tries_within(&with_phase(bytes, task, phase), MOST_TRIES);
    let some = tries(rng.between(0, period - 1)).unwrap_or(MOST_TRIES);
    let wanted = match rng.below(4) {
        0 => u64::MAX,
        _ => rng.pick(&allowances(some)),
    };
    if wanted > MOST_TRIES && (0..period).any(|phase| tries(phase).is_none()) {
        return rng.below(MOST_TRIES as usize) as u64;
    }
    wanted
}

/// A task of a request, and an allowance for each of its phases.
pub fn some_shift(rng: &mut Random, bytes: &[u8]) -> Shift {
    let Ok(cycle) = read_cycle(bytes) else {
        return Shift {
            task: rng.pick(&[0, 1, 2, 16, 255]),
            allowance: rng.draw(),
        };
    };
    let task = task(rng, &cycle);
    let allowance = match cycle.request.tasks.get(task) {
        Some(known) => allowance(rng, bytes, task, known.t),
        None => rng.draw(),
    };
    Shift {
        task: task as u8,
        allowance,
    }
}

/// The call that counts the phases.
pub fn call(request: &[u8], shift: Shift, counts: &[u8]) -> Call {
    Call::phases(request, shift.task, shift.allowance, counts)
}

/// Counts the phases of some tasks of a request. The buffer is now and then longer than it need be, or
/// too short.
pub fn round(comparison: &mut Comparison) -> Result<(), String> {
    let request = one_request(&mut comparison.rng);
    comparison.tally.requests += 1;
    for _ in 0..SHIFTS_OF_A_REQUEST {
        let shift = some_shift(&mut comparison.rng, &request);
        let length = match comparison.rng.below(16) {
            0 => comparison.rng.below(COUNTS_LEN),
            1..=3 => COUNTS_LEN + 1 + comparison.rng.below(20),
            _ => COUNTS_LEN,
        };
        let counts = comparison.buffer(length);
        comparison.same(&call(&request, shift, &counts))?;
    }
    Ok(())
}
