//! Decisions: the bench sheet, the stored requests that 10,000,000 tries leave open, random requests
//! beside planning with a limit, and buffers of every length.

use crate::common::{subject, subjects, table, tell};
use bus_tests::bus::{Bus, TRIES_LEN};
use bus_tests::call::hex;
use bus_tests::generate;
use bus_tests::left_open::{stored, Stored};
use bus_tests::random::Random;
use bus_tests::reference::PROGRAM_TRIES;
use bus_tests::sheet::{self, pigeons, request};

const REQUESTS: u64 = if cfg!(feature = "linked") {
    20_000
} else {
    2_000
};
const ALLOWANCE: u64 = 30_000;

/// The answer with room enough, and the table, after a look at the bytes behind it.
fn decided(bus: &dyn Bus, request: &[u8]) -> (i32, Vec<u8>) {
    let mut out = vec![0x5A; 600];
    let answer = bus.decide(request, &mut out);
    let rest = out.split_off(answer.max(0) as usize);
    assert!(rest.iter().all(|byte| *byte == 0x5A));
    (answer, out)
}

/// The same of planning with so many tries allowed.
fn planned(bus: &dyn Bus, request: &[u8], allowance: u64) -> (i32, Vec<u8>) {
    let mut out = vec![0x5A; 600];
    let answer = bus.plan(request, allowance, &mut out, &mut [0; TRIES_LEN]);
    out.truncate(answer.max(0) as usize);
    (answer, out)
}

#[test]
fn the_bench_sheet() {
    let p3 = table(4, 24, "0.0 1.0 / 2.0 / 0.1 1.1 / 0.2 / 3.0 / 0.3 1.2");
    let p7 = table(5, 10, "0.0+ / ");
    for (name, bus) in subjects() {
        for (bytes, expected) in [
            (sheet::p1(), Ok(table(20, 40, "0.0 1.0 2.0 / 0.1 1.1"))),
            (sheet::p2(), Err(9)),
            (sheet::p3(), Ok(p3.clone())),
            (sheet::p5(), Err(10)),
            (sheet::p7(), Ok(p7.clone())),
            (sheet::p10(), Err(9)),
            (sheet::p11(), Err(8)),
            (sheet::p12_long(), Err(7)),
        ] {
            let (answer, bytes) = decided(bus, &bytes);
            match expected {
                Ok(table) => assert_eq!((answer, bytes), (table.len() as i32, table), "{name}"),
                Err(number) => assert_eq!(answer, -number, "{name}"),
            }
        }
    }
}

/// More jobs than frames: with n jobs the search makes more than n factorial tries.
#[test]
fn pigeons_are_refused_at_once() {
    for (name, bus) in subjects() {
        for holes in 10..=14 {
            let bytes = pigeons(holes as usize + 1, holes, 0);
            assert_eq!(decided(bus, &bytes).0, -10, "{name}, {holes}");
        }
        assert_eq!(decided(bus, &pigeons(16, 15, 0)).0, -10, "{name}");
        assert!(decided(bus, &pigeons(15, 15, 0)).0 > 0, "{name}");
    }
}

/// Each stored answer is given, and to each of some of the requests planning with the programs' tries
/// answers 23.
#[test]
fn requests_that_the_tries_leave_open() {
    let stored = stored();
    assert!(stored.len() >= 200, "{}", stored.len());
    for (place, open) in stored.iter().enumerate() {
        let Stored {
            request,
            answer,
            table,
        } = open;
        let expected = (*answer, table.clone());
        assert_eq!(decided(subject(), request), expected, "{}", hex(request));
        if place % 16 == 0 && cfg!(feature = "linked") {
            let open = planned(subject(), request, PROGRAM_TRIES).0;
            assert_eq!(open, -23, "{}", hex(request));
        }
    }
}

/// Where planning with a limit answers anything but 23, deciding answers the same.
#[test]
fn it_answers_what_planning_does() {
    let mut rng = Random::new(336);
    let (mut open, mut tables) = (0, 0);
    for _ in 0..REQUESTS {
        let bytes = match rng.below(4) {
            0 => generate::crowded_bytes(&mut rng),
            1 => generate::request_bytes(&mut rng),
            _ => generate::valid_bytes(&mut rng),
        };
        let plan = planned(subject(), &bytes, ALLOWANCE);
        let decision = decided(subject(), &bytes);
        if plan.0 == -23 {
            let number = decision.0;
            assert!(number > 0 || number == -10, "{number}: {}", hex(&bytes));
            open += 1;
            continue;
        }
        tables += u64::from(plan.0 > 0);
        assert_eq!(decision, plan, "{}", hex(&bytes));
    }
    tell(format!(
        "decided beside planning: {REQUESTS} requests, {tables} tables, {open} left open by {ALLOWANCE} tries\n"
    ));
    assert!(tables > REQUESTS / 5);
}

/// A buffer that is too short gives 11 after all else and is left as it was.
#[test]
fn short_buffers() {
    for (name, bus) in subjects() {
        for room in 0..19 {
            let mut out = vec![0x5A; room];
            assert_eq!(bus.decide(&sheet::p1(), &mut out), -11, "{name}");
            assert_eq!(out, vec![0x5A; room], "{name}");
        }
        let mut exact = [0x5A; 19];
        assert_eq!(bus.decide(&sheet::p1(), &mut exact), 19, "{name}");
        for (bytes, number) in [
            (vec![], 1),
            (vec![0], 2),
            (request(&[(0, 1, 1, 0)], &[]), 3),
            (sheet::with_section(sheet::p1(), &[2]), 17),
            (sheet::with_section(sheet::p1(), &[0, 0]), 6),
            (sheet::p12_long(), 7),
            (sheet::p11(), 8),
            (sheet::p2(), 9),
            (sheet::p5(), 10),
        ] {
            assert_eq!(bus.decide(&bytes, &mut []), -number, "{name}");
        }
    }
}
