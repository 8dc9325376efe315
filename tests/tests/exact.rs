//! The exact planner of the reference: beside the plain search wherever that comes to its end, and the
//! stored requests that the tries of the programs leave open.

use crate::common::tell;
use bus_tests::call::hex;
use bus_tests::generate;
use bus_tests::hard;
use bus_tests::left_open::{stored, Stored};
use bus_tests::plain;
use bus_tests::random::Random;
use bus_tests::reference::check::plan_in;
use bus_tests::reference::table::{decode, encode};
use bus_tests::reference::{decided, planned, read_cycle, tries_within, PROGRAM_TRIES};

const REQUESTS: u64 = 6_000;
const MOST_TRIES: u64 = 30_000;

fn drawn(rng: &mut Random) -> Vec<u8> {
    match rng.below(10) {
        0 => generate::crowded_bytes(rng),
        1 => generate::short_bytes(rng),
        2 => generate::loose_bytes(rng),
        3 | 4 => generate::request_bytes(rng),
        _ => generate::valid_bytes(rng),
    }
}

/// Every answer and every byte is the plain search's, where that ends.
#[test]
fn it_decides_as_the_plain_search_does() {
    let mut rng = Random::new(331);
    let (mut seen, mut tables, mut none, mut carried) = (0, 0, 0, 0);
    while seen < REQUESTS {
        let bytes = drawn(&mut rng);
        if tries_within(&bytes, MOST_TRIES).is_none() {
            continue;
        }
        let plainly = planned(&bytes);
        assert_eq!(decided(&bytes), plainly, "{}", hex(&bytes));
        seen += 1;
        none += u64::from(plainly == Err(10));
        if let Ok(table) = plainly {
            tables += 1;
            let mut entries = table.rows.iter().flatten();
            carried += u64::from(entries.any(|entry| entry.carry));
        }
    }
    tell(format!(
        "exact: {seen} requests, {tables} tables, {carried} with a carried job, {none} refused with 10\n"
    ));
    assert!(tables > seen / 4 && carried > seen / 20 && none > seen / 50);
}

/// The same of requests with 1 to 49 million tries, beside the plain version with kept loads.
#[test]
fn it_decides_long_searches_alike() {
    for hard in hard::requests() {
        let mut out = vec![0; 600];
        let answer = plain::plan(&hard.request, u64::MAX, &mut out, &mut [0; 8]);
        out.truncate(answer.max(0) as usize);
        let table = decided(&hard.request).map(|table| encode(&table));
        let expected = if answer < 0 { Err(-answer) } else { Ok(out) };
        assert_eq!(table, expected, "{}", hard.name);
    }
}

/// The stored answers are given, every stored table is a plan, and some of the requests are tried to
/// the last try that the programs allow.
#[test]
fn stored_requests_are_left_open_and_decided() {
    let stored = stored();
    let (mut tables, mut none) = (0, 0);
    for (place, open) in stored.iter().enumerate() {
        let Stored {
            request,
            answer,
            table: bytes,
        } = open;
        let table = decided(request).map(|table| encode(&table));
        match answer {
            -10 => {
                assert_eq!(table, Err(10), "{}", hex(request));
                none += 1;
            }
            _ => {
                assert_eq!(bytes.len() as i32, *answer);
                assert_eq!(table.as_ref(), Ok(bytes), "{}", hex(request));
                let cycle = read_cycle(request).expect("it has a plan");
                let read = decode(bytes).expect("it has the form");
                assert!(plan_in(&cycle, &read).is_ok(), "{}", hex(request));
                tables += 1;
            }
        }
        if place % 16 == 0 {
            assert_eq!(plain::tries_within(request, PROGRAM_TRIES), None);
        }
    }
    tell(format!(
        "left open: {tables} tables, {none} refused with 10\n"
    ));
    assert!(stored.len() >= 200 && tables >= 40 && none >= 40);
}
