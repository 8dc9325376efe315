//! Random and mutated bytes at every export, with guard bytes around every lent buffer, each
//! answer compared with the reference.
//!
//! fuzz SECONDS SEED

use std::env;
use std::process::exit;
use std::time::{Duration, Instant};

use bus_tests::comparison::Comparison;
use bus_tests::fuzzer::Fuzzer;
use bus_tests::library::Library;

fn argument(place: usize, name: &str) -> u64 {
    match env::args().nth(place).and_then(|word| word.parse().ok()) {
        Some(number) => number,
        None => {
            eprintln!("usage: fuzz SECONDS SEED ({name} is missing)");
            exit(2);
        }
    }
}

fn main() {
    let seconds = argument(1, "SECONDS");
    let seed = argument(2, "SEED");
    let mut fuzzer = Fuzzer::new(seed);
    let mut comparison = Comparison::new(&Library, seed);
    let end = Instant::now() + Duration::from_secs(seconds);
    while Instant::now() < end {
        match fuzzer.learn_at_times() {
            Some(true) => comparison.tally.requests += 1,
            Some(false) => comparison.tally.left_out += 1,
            None => {}
        }
        let call = fuzzer.call();
        match comparison.same(&call) {
            Ok(outcome) => fuzzer.learn_outcome(&call, &outcome),
            Err(fault) => {
                eprintln!("seed {seed}, call {}: {fault}", comparison.tally.calls);
                exit(1);
            }
        }
    }
    println!("seed {seed}, no fault: {}", comparison.tally.summary());
}
