//! Two requests to be joined, and one round of comparison with them.

use crate::call::Call;
use crate::comparison::Comparison;
use crate::generate;
use crate::random::Random;
use crate::reference::join::joined;
use crate::reference::request::{read, write, Request};

fn one_request(rng: &mut Random) -> Vec<u8> {
    if rng.chance(25) {
        generate::crowded_bytes(rng)
    } else {
        generate::request_bytes(rng)
    }
}

/// The second with the first's g, if both are requests.
fn with_common_silence(rng: &mut Random, first: &[u8], second: Vec<u8>) -> Vec<u8> {
    match (read(first), read(&second)) {
        (Ok(first), Ok(second)) => {
            let g = first.g;
            generate::written(rng, &Request { g, ..second })
        }
        _ => second,
    }
}

/// A request with its tasks parted in two, and the pairs that stay on one side: joined again it
/// has a plan more often than any two requests.
fn parted(rng: &mut Random) -> Option<(Vec<u8>, Vec<u8>)> {
    let whole = read(&generate::valid_bytes(rng)).ok()?;
    if whole.tasks.len() < 2 {
        return None;
    }
    let n = 1 + rng.below(whole.tasks.len() - 1);
    let (first, second) = whole.tasks.split_at(n);
    let pairs = &whole.pairs;
    let low = pairs.iter().copied().filter(|pair| pair.1 < n);
    let high = pairs.iter().filter(|pair| pair.0 >= n);
    let one = Request {
        tasks: first.to_vec(),
        pairs: low.collect(),
        g: whole.g,
    };
    let two = Request {
        tasks: second.to_vec(),
        pairs: high.map(|(a, b)| (a - n, b - n)).collect(),
        g: whole.g,
    };
    Some((generate::written(rng, &one), generate::written(rng, &two)))
}

/// Bytes to be joined with the first: mostly a valid request with the same g.
pub fn partner(rng: &mut Random, first: &[u8]) -> Vec<u8> {
    let second = match rng.below(10) {
        0 => first.to_vec(),
        _ => one_request(rng),
    };
    if rng.chance(80) {
        return with_common_silence(rng, first, second);
    }
    second
}

/// Bytes to be read as two requests.
pub fn two_requests(rng: &mut Random) -> (Vec<u8>, Vec<u8>) {
    if rng.chance(30) {
        if let Some(two) = parted(rng) {
            return two;
        }
    }
    let first = one_request(rng);
    let second = partner(rng, &first);
    (first, second)
}

/// Joins two requests in buffers of several lengths, and plans what was written.
pub fn round(comparison: &mut Comparison) -> Result<(), String> {
    let (first, second) = two_requests(&mut comparison.rng);
    comparison.tally.requests += 1;
    let whole = joined(&first, &second).map(|whole| write(&whole));
    let length = whole.as_ref().map_or(0, Vec::len);
    for room in comparison.rooms(length) {
        let out = comparison.buffer(room);
        comparison.same(&Call::join(&first, &second, &out))?;
    }
    match whole {
        Ok(request) => comparison.plan_as_far(&request),
        Err(_) => Ok(()),
    }
}
