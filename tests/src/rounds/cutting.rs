//! Requests with a task to be cut, and one round of comparison with them.

use crate::call::Call;
use crate::comparison::Comparison;
use crate::generate;
use crate::random::Random;
use crate::reference::cut::{cut, Cut};
use crate::reference::request::{read, write};

const CUTS_OF_A_REQUEST: usize = 6;
const CUTS_OF_OTHER_BYTES: usize = 2;

/// The request with its pairs again and again, until there are 15 or 16.
fn with_many_pairs(rng: &mut Random, bytes: Vec<u8>) -> Vec<u8> {
    match read(&bytes) {
        Ok(mut request) if !request.pairs.is_empty() => {
            let count = rng.pick(&[15, 16]);
            let again = request.pairs.iter().copied().cycle().take(count);
            request.pairs = again.collect();
            generate::written(rng, &request)
        }
        _ => bytes,
    }
}

fn one_request(rng: &mut Random) -> Vec<u8> {
    let bytes = match rng.below(4) {
        0 => generate::crowded_bytes(rng),
        _ => generate::request_bytes(rng),
    };
    if rng.chance(15) {
        return with_many_pairs(rng, bytes);
    }
    bytes
}

/// A task number: mostly of a task with two ticks or more, now and then none of the request's.
fn task(rng: &mut Random, lengths: &[i64]) -> usize {
    let n = lengths.len();
    let known = rng.below(n.max(1));
    let long = (0..n).filter(|number| lengths[*number] > 1);
    let long: Vec<usize> = long.collect();
    match rng.below(12) {
        0 => rng.pick(&[n, n + 1, 15, 16, 255]),
        1 => known + 16 * rng.below(15),
        2 => known,
        _ if long.is_empty() => known,
        _ => rng.pick(&long),
    }
}

/// A first piece of a task of c ticks: mostly one that leaves a second, often just so or just not, now
/// and then one that does so in its low byte only.
fn first(rng: &mut Random, c: i64) -> i64 {
    let good = rng.between(1, (c - 1).max(1));
    match rng.below(16) {
        0 => 0,
        1 => 1,
        2 => c - 1,
        3 => c,
        4 => c + 1,
        5 => good + 256,
        6 => 65_535 - rng.between(0, c),
        _ => good,
    }
}

/// What may be cut of a request.
pub fn some_cut(rng: &mut Random, bytes: &[u8]) -> Cut {
    let lengths: Vec<i64> = match read(bytes) {
        Ok(request) => request.tasks.iter().map(|task| task.c).collect(),
        Err(_) => vec![5; 3],
    };
    let task = task(rng, &lengths);
    let c = lengths.get(task).copied().unwrap_or(5);
    Cut {
        task: task as u8,
        first: first(rng, c) as u16,
    }
}

/// The call that cuts the request.
pub fn call(request: &[u8], cut: Cut, out: &[u8]) -> Call {
    Call::cut(request, cut.task, cut.first, out)
}

/// Cuts a request, and now and then what was written, in buffers of several lengths, and plans the
/// last that was written.
pub fn round(comparison: &mut Comparison) -> Result<(), String> {
    let mut request = one_request(&mut comparison.rng);
    comparison.tally.requests += 1;
    let long = read(&request).is_ok_and(|old| old.tasks.iter().any(|task| task.c > 1));
    let cuts = if long {
        CUTS_OF_A_REQUEST
    } else {
        CUTS_OF_OTHER_BYTES
    };
    let mut written = None;
    for _ in 0..cuts {
        let asked = some_cut(&mut comparison.rng, &request);
        let file = cut(&request, asked).map(|file| write(&file)).ok();
        let length = file.as_ref().map_or(0, Vec::len);
        for room in comparison.rooms(length) {
            let out = comparison.buffer(room);
            comparison.same(&call(&request, asked, &out))?;
        }
        if let Some(file) = file {
            if comparison.rng.chance(30) {
                request.clone_from(&file);
            }
            written = Some(file);
        }
    }
    match written {
        Some(file) => comparison.plan_as_far(&file),
        None => Ok(()),
    }
}
