//! What the sanitizer's run needs from the rows, on standard output. `record rows` is a line of C
//! for each row. `record REQUESTS CALLS SEED` records calls with the outcomes of the
//! reference: those of so many requests in rounds of each kind, and so many that the fuzzer draws.

use std::env;
use std::io::{self, stdout, BufWriter, Write};

use bus_tests::call::{Call, Outcome};
use bus_tests::compare::expected;
use bus_tests::comparison::Comparison;
use bus_tests::fuzzer::Fuzzer;
use bus_tests::record::{put, rows as rows_in_c};
use bus_tests::rounds;

/// The outcome by the reference, after it was recorded.
fn recorded(out: &mut dyn Write, call: &Call) -> Result<Outcome, String> {
    let outcome = expected(call)?;
    match put(out, call, &outcome) {
        Ok(()) => Ok(outcome),
        Err(reason) => Err(reason.to_string()),
    }
}

fn record(out: &mut dyn Write, requests: u64, calls: u64, seed: u64) -> Result<(), String> {
    for round in rounds::ALL {
        let judge = Box::new(|call: &Call| recorded(out, call));
        Comparison::judged_by(judge, seed).rounds(round, requests)?;
    }
    let mut fuzzer = Fuzzer::new(seed);
    for _ in 0..calls {
        fuzzer.learn_at_times();
        let call = fuzzer.call();
        let outcome = recorded(out, &call)?;
        fuzzer.learn_outcome(&call, &outcome);
    }
    Ok(())
}

fn main() -> io::Result<()> {
    let words: Vec<String> = env::args().skip(1).collect();
    let numbers: Vec<u64> = words.iter().filter_map(|word| word.parse().ok()).collect();
    let mut out = BufWriter::new(stdout().lock());
    match numbers[..] {
        [requests, calls, seed] => {
            record(&mut out, requests, calls, seed).map_err(io::Error::other)?;
        }
        _ if words == ["rows"] => write!(out, "{}", rows_in_c())?,
        _ => {
            return Err(io::Error::other(
                "usage: record rows | record REQUESTS CALLS SEED",
            ))
        }
    }
    out.flush()
}
