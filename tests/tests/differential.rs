//! Seeded requests, tables and call lists, answered by the subject and by the reference. With
//! the feature `linked` the subject is the library; without it the reference stands in, in
//! fewer rounds, so that the harness itself is exercised.

use crate::common::{subject, tell_cut};
use bus_tests::comparison::{Seeded, Tally, MOST_TRIES};
use bus_tests::rounds::planning;

const REQUESTS: u64 = if cfg!(feature = "linked") { 6_000 } else { 600 };

/// Every number that a call can give was given, and not only once or twice.
fn judge(tally: &Tally) {
    let calls = ["plan", "check", "rewrite", "fresh", "next_frame", "report"];
    tally.judge_variety(&calls, REQUESTS / 600);
    assert!(tally.count("plan", 0) * 5 > tally.requests, "few tables");
    assert!(tally.left_out * 20 < tally.requests, "too many cut");
}

#[test]
fn every_answer_and_byte_is_the_same() {
    let seeded = Seeded {
        round: planning::round,
        seeds: &[1, 2, 3, 4],
        requests: REQUESTS,
    };
    let tally = seeded.compare(subject(), judge);
    tell_cut("differential", tally.requests, tally.left_out, MOST_TRIES);
}
