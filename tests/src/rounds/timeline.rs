//! Lists lent for the timeline of a plan, and one round of comparison with them.

use crate::bus::{Bus, RECORD_LEN};
use crate::call::Call;
use crate::comparison::{Comparison, MOST_TRIES};
use crate::generate;
use crate::random::Random;
use crate::reference::table::encode;
use crate::reference::{planned, read_cycle, tries_within, Reference};

/// Lengths of lists of an accepted table: a byte, a place and all places short, just so, and longer
/// by less than a place or by some places.
fn lengths(rng: &mut Random, jobs: usize) -> Vec<usize> {
    let whole = RECORD_LEN * jobs;
    let shorter = [whole - 1, whole - RECORD_LEN, rng.below(whole), 0];
    let longer = [
        whole + 1 + rng.below(RECORD_LEN - 1),
        whole + rng.below(20 * RECORD_LEN),
    ];
    vec![rng.pick(&shorter), whole, rng.pick(&longer)]
}

/// A length about what a request's jobs need, for a table of any kind.
pub fn some_length(rng: &mut Random, request: &[u8]) -> usize {
    match read_cycle(request) {
        Ok(cycle) => {
            let some = lengths(rng, cycle.jobs.len());
            rng.pick(&some)
        }
        Err(_) => rng.pick(&[0, 7, 8, 1_024]),
    }
}

/// Some are crowded, and some have a field that is out of bounds.
fn some_request(rng: &mut Random) -> Vec<u8> {
    match rng.below(8) {
        0 => generate::crowded_bytes(rng),
        1 => {
            let mut bytes = generate::valid_bytes(rng);
            generate::damage_a_field(rng, &mut bytes);
            bytes
        }
        _ => generate::request_bytes(rng),
    }
}

/// One request, some tables, and the timeline of each.
pub fn round(comparison: &mut Comparison) -> Result<(), String> {
    let request = some_request(&mut comparison.rng);
    if tries_within(&request, MOST_TRIES).is_none() {
        comparison.tally.left_out += 1;
        return Ok(());
    }
    comparison.tally.requests += 1;
    let chosen = planned(&request).ok();
    let mut pool = generate::table_pool(&mut comparison.rng, &request, chosen.as_ref(), MOST_TRIES);
    pool.extend(chosen.as_ref().map(encode));
    for table in &pool {
        let rng = &mut comparison.rng;
        let lengths = match Reference.check(&request, table) {
            0 => lengths(
                rng,
                read_cycle(&request).map_or(0, |cycle| cycle.jobs.len()),
            ),
            _ => vec![some_length(rng, &request)],
        };
        for length in lengths {
            let records = comparison.buffer(length);
            comparison.same(&Call::timeline(&request, table, &records))?;
        }
    }
    Ok(())
}
