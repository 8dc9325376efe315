//! The rounds of comparison, a kind in each file.

pub mod cutting;
pub mod deciding;
pub mod drafting;
pub mod heater;
pub mod joining;
pub mod one_off;
pub mod phases;
pub mod planning;
pub mod timeline;
pub mod timer;

use crate::comparison::Round;

/// All kinds of rounds, for those who make every one.
pub const ALL: [Round; 10] = [
    planning::round,
    joining::round,
    one_off::round,
    cutting::round,
    deciding::round,
    drafting::round,
    phases::round,
    timer::round,
    heater::round,
    timeline::round,
];
