//! Flights of planned tables: release, deadline, order of pairs, silent ticks, exactly once, spacing
//! of successive jobs, state and counts.

use crate::common::{subject, tell_left_out};
use bus_tests::comparison::MOST_TRIES;
use bus_tests::sheet;
use bus_tests::simulate::{fly_long, fly_many, spaced};

const FLIGHTS: u64 = if cfg!(feature = "linked") { 4_000 } else { 400 };

#[test]
fn flights_keep_their_promises() {
    let done = fly_many(subject(), 31, FLIGHTS).unwrap_or_else(|fault| panic!("{fault}"));
    println!("{done:?}");
    tell_left_out("flights", done.requests, done.left_out, MOST_TRIES);
    assert!(done.with_carry * 10 > done.flights, "{done:?}");
    assert!(done.with_pairs * 10 > done.flights, "{done:?}");
    assert!(done.with_silence * 10 > done.flights, "{done:?}");
    assert!(done.over_a_cycle * 10 > done.readings, "{done:?}");
    assert!(done.over_the_first * 20 > done.readings, "{done:?}");
}

/// P7 has T 10, D 9 and C 2: readings are 10 − 7 to 10 + 7 ticks apart.
#[test]
fn the_bounds_of_spacing() {
    let task = bus_tests::reference::request::Task {
        c: 2,
        t: 10,
        d: 9,
        p: 6,
    };
    let allowed: Vec<i64> = (0..30).filter(|apart| spaced(&task, *apart)).collect();
    assert_eq!(allowed, (3..=17).collect::<Vec<i64>>());
}

#[test]
fn one_task_passes_65535_overruns() {
    for task in 0..4 {
        fly_long(subject(), &sheet::p3(), task, 32).unwrap_or_else(|fault| panic!("{fault}"));
    }
}
