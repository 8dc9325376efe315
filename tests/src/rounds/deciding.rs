//! Requests of every kind, those among them whose search is long, and one round of comparison in which
//! they are decided.

use crate::call::Call;
use crate::comparison::Comparison;
use crate::generate;
use crate::left_open;
use crate::random::Random;
use crate::reference::decided;
use crate::reference::table::encode;

pub fn one_request(rng: &mut Random) -> Vec<u8> {
    let mut bytes = match rng.below(10) {
        0 => generate::crowded_bytes(rng),
        1 => generate::short_bytes(rng),
        2 | 3 => left_open::some_bytes(rng),
        _ => return generate::request_bytes(rng),
    };
    if rng.chance(10) {
        generate::damage_a_field(rng, &mut bytes);
    }
    bytes
}

/// Decides a request with room about the length of its table.
pub fn round(comparison: &mut Comparison) -> Result<(), String> {
    let request = one_request(&mut comparison.rng);
    comparison.tally.requests += 1;
    let length = decided(&request).map_or(0, |table| encode(&table).len());
    for room in comparison.rooms(length) {
        let out = comparison.buffer(room);
        comparison.same(&Call::decide(&request, &out))?;
    }
    Ok(())
}
