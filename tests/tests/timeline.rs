//! The timeline of a plan: worked cases, limits, lists of every length, and which number is given when
//! several would do.

use crate::common::{plan, subject, subjects, table};
use bus_tests::bus::Bus;
use bus_tests::call::Call;
use bus_tests::compare::compare;
use bus_tests::reference::table::decode;
use bus_tests::reference::timeline::printed;
use bus_tests::reference::{planned, PROGRAM_TRIES};
use bus_tests::sheet::{self, request, silent_request};

/// Task, job, release, due and frame.
type Five = (u8, u8, u16, u16, u16);

fn bytes(records: &[Five]) -> Vec<u8> {
    let mut bytes = Vec::new();
    for (task, job, release, due, frame) in records {
        bytes.extend([*task, *job]);
        for number in [release, due, frame] {
            bytes.extend([(number % 256) as u8, (number / 256) as u8]);
        }
    }
    bytes
}

/// The table's timeline is these records, in a list of just so many places and in longer ones, of which
/// the bytes behind stay; a list a place or a byte short gives 11 and stays whole.
fn has(request: &[u8], table: &[u8], records: &[Five]) {
    let expected = bytes(records);
    let whole = expected.len();
    for (name, bus) in subjects() {
        for more in [0, 1, 7, 8, 9, 60_000] {
            let mut list = vec![0xA5; whole + more];
            let answer = bus.timeline(request, table, &mut list);
            assert_eq!(answer, records.len() as i32, "{name}: {more} bytes more");
            assert_eq!(list[..whole], expected, "{name}");
            assert!(list[whole..].iter().all(|byte| *byte == 0xA5), "{name}");
        }
        for length in [whole - 1, whole - 7, whole - 8, 0] {
            refused_in(bus, request, table, length, 11);
        }
    }
}

fn refused_in(bus: &dyn Bus, request: &[u8], table: &[u8], length: usize, number: i32) {
    let mut list = vec![0xA5; length];
    let answer = bus.timeline(request, table, &mut list);
    assert_eq!(answer, -number, "{length} bytes");
    assert_eq!(list, vec![0xA5; length], "{length} bytes");
}

/// Refused with this number, whatever the list's length is.
fn refused(request: &[u8], table: &[u8], number: i32) {
    for (_, bus) in subjects() {
        for length in [0, 7, 8, 40, 1_024, 1_030] {
            refused_in(bus, request, table, length, number);
        }
    }
}

/// P1: frames of 20 ticks, two rows; jobs released together stand by task, and so the last of row 0
/// comes before the first of row 1.
#[test]
fn p1() {
    let rows = table(20, 40, "0.0 1.0 2.0 / 0.1 1.1");
    let records = [
        (0, 0, 0, 20, 0),
        (1, 0, 0, 20, 0),
        (2, 0, 0, 40, 0),
        (0, 1, 20, 40, 1),
        (1, 1, 20, 40, 1),
    ];
    has(&sheet::p1(), &rows, &records);
    let other = table(20, 40, "0.0 1.0 / 0.1 1.1 2.0");
    let moved = records.map(|one| if one.0 == 2 { (2, 0, 0, 40, 1) } else { one });
    has(&sheet::p1(), &other, &moved);
}

/// P7's only job, due at 15 in a cycle of 10, is carried into row 0 of two: frame 2.
#[test]
fn a_carried_frame() {
    has(&sheet::p7(), &table(5, 10, "0.0+ / "), &[(0, 0, 6, 15, 2)]);
}

/// Planning order is by release: later tasks first if they are released first; a table's order is not.
#[test]
fn planning_order() {
    let late = request(&[(1, 8, 4, 4), (1, 8, 4, 0), (1, 4, 4, 0)], &[]);
    has(
        &late,
        &table(4, 8, "1.0 2.0 / 0.0 2.1"),
        &[
            (1, 0, 0, 4, 0),
            (2, 0, 0, 4, 0),
            (0, 0, 4, 8, 1),
            (2, 1, 4, 8, 1),
        ],
    );
}

/// Numbers above a byte; the due time passes H, and k passes F.
#[test]
fn large_numbers() {
    let late = request(&[(1, 10_000, 10_000, 9_999)], &[]);
    let chosen = plan(subject(), &late).expect("it has a table");
    let f = decode(&chosen).expect("a table").f as u16;
    let frame = 9_999_u16.div_ceil(f);
    has(&late, &chosen, &[(0, 0, 9_999, 19_999, frame)]);
    let mut rows = vec![""; 256];
    rows[255] = "0.0";
    has(
        &request(&[(1, 256, 256, 255)], &[]),
        &table(1, 256, &rows.join(" / ")),
        &[(0, 0, 255, 511, 255)],
    );
    rows.swap(255, 254);
    rows[254] = "0.0+";
    has(
        &request(&[(1, 256, 256, 255)], &[]),
        &table(1, 256, &rows.join(" / ")),
        &[(0, 0, 255, 511, 510)],
    );
}

/// 128 jobs fill 1,024 bytes.
#[test]
fn the_most_jobs() {
    let single = request(&[(1, 1, 1, 0), (1, 127, 127, 0)], &[]);
    refused(&single, &table(1, 127, &["0.0"; 127].join(" / ")), 14);
    let many = request(&[(1, 2, 2, 0), (1, 254, 254, 0)], &[]);
    let chosen = plan(subject(), &many).expect("it has a table");
    for (name, bus) in subjects() {
        let mut list = [0xA5; 1_024];
        assert_eq!(bus.timeline(&many, &chosen, &mut list), 128, "{name}");
        assert_eq!(list[1_016..], bytes(&[(0, 126, 252, 254, 126)]), "{name}");
        refused_in(bus, &many, &chosen, 1_023, 11);
    }
}

/// Each number of the check comes first, whatever the list; 11 is last.
#[test]
fn the_order_of_the_numbers() {
    let (p1, good) = (sheet::p1(), table(20, 40, "0.0 1.0 2.0 / 0.1 1.1"));
    let tasks = [(1, 8, 8, 0), (1, 8, 8, 0)];
    let mut four = request(&tasks, &[]);
    four[17] = 17;
    for (bytes, number) in [
        (vec![], 1),
        (p1[..p1.len() - 1].to_vec(), 1),
        (vec![0], 2),
        (request(&[(0, 1, 1, 0)], &[]), 3),
        (four, 4),
        (request(&tasks, &[(1, 0)]), 5),
        (sheet::with_section(p1.clone(), &[2]), 17),
        (sheet::with_section(p1.clone(), &[0, 0]), 6),
        (sheet::p12_long(), 7),
        (sheet::p11(), 8),
    ] {
        for table in [&good, &vec![]] {
            refused(&bytes, table, number);
        }
    }
    refused(&p1, &[], 12);
    refused(&p1, &good[..good.len() - 1], 12);
    refused(&p1, &table(5, 10, "0.0+ / "), 13);
    refused(&p1, &table(20, 40, "0.0 1.0 / 0.1 1.1"), 14);
    refused(&sheet::p1_silent(), &good, 14);
}

/// Every list of 0 to 50 bytes for P1, which needs 40.
#[test]
fn every_length() {
    let good = table(20, 40, "0.0 1.0 2.0 / 0.1 1.1");
    for length in 0..=50 {
        let call = Call::timeline(&sheet::p1(), &good, &vec![0x5A; length]);
        let answer = compare(subject(), &call).map(|outcome| outcome.answer);
        assert_eq!(answer, Ok(if length < 40 { -11 } else { 5 }), "{length}");
    }
}

/// What the program prints, the silent ticks not counted as busy.
#[test]
fn what_is_printed() {
    for (bytes, text) in [
        (
            sheet::p1(),
            "0 0 0 20 0\n1 0 0 20 0\n2 0 0 40 0\n0 1 20 40 1\n1 1 20 40 1\nbusy 30\n",
        ),
        (sheet::p2(), "refused 9\n"),
        (sheet::p7(), "0 0 6 15 2\nbusy 2\n"),
        (
            silent_request(&[(3, 10, 10, 0)], &[], 2),
            "0 0 0 10 0\nbusy 3\n",
        ),
    ] {
        assert_eq!(printed(&bytes, &planned(&bytes)), text);
    }
    assert_eq!(PROGRAM_TRIES, 10_000_000);
}
