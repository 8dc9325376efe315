//! Time for a one-off transfer: worked cases, edges, and which number is given when several would
//! do.

use crate::common::{plan, subject, subjects, table};
use bus_tests::call::Call;
use bus_tests::compare::compare;
use bus_tests::reference::read_cycle;
use bus_tests::reference::table::decode;
use bus_tests::sheet::{self, request, silent_request};

/// A request with a table that is accepted.
struct Planned {
    request: Vec<u8>,
    table: Vec<u8>,
}

impl Planned {
    fn new(request: Vec<u8>, table: Vec<u8>) -> Planned {
        crate::common::checks_as(&request, &table, 0);
        Planned { request, table }
    }

    /// So many ticks asked for between the two others get this answer.
    fn answers(&self, length: u32, from: u32, until: u32, expected: i32) {
        answers(&self.request, &self.table, (length, from, until), expected);
    }
}

fn answers(request: &[u8], table: &[u8], three: (u32, u32, u32), expected: i32) {
    let (length, from, until) = three;
    for (name, bus) in subjects() {
        let answer = bus.one_off(request, table, length, from, until);
        assert_eq!(answer, expected, "{name}: {three:?}");
    }
}

fn p1() -> Planned {
    Planned::new(sheet::p1(), table(20, 40, "0.0 1.0 2.0 / 0.1 1.1"))
}

/// P7's only entry is carried, in row 0 of two.
fn p7() -> Planned {
    Planned::new(sheet::p7(), table(5, 10, "0.0+ / "))
}

/// P1's row 0 is full, and row 1 leaves 10 of its 20 ticks.
#[test]
fn p1_and_what_just_fits() {
    let p1 = p1();
    p1.answers(10, 0, 80, 1);
    p1.answers(11, 0, 80, -22);
    p1.answers(1, 20, 40, 1);
    p1.answers(10, 20, 40, 1);
    p1.answers(11, 20, 40, -22);
    p1.answers(1, 0, 39, -22);
    p1.answers(1, 21, 80, 3);
    p1.answers(1, 21, 79, -22);
    p1.answers(10, 60, 80, 3);
    p1.answers(1, 40, 60, -22);
}

#[test]
fn equal_ticks_hold_no_frame() {
    for tick in 0..=80 {
        p1().answers(1, tick, tick, -22);
        p1().answers(u32::MAX, tick, tick, -22);
    }
    p1().answers(1, 81, 81, -21);
}

/// The last tick may be 2H and no more.
#[test]
fn the_end_of_the_second_cycle() {
    let p1 = p1();
    p1.answers(10, 60, 80, 3);
    p1.answers(10, 60, 81, -21);
    p1.answers(1, 0, 81, -21);
    p1.answers(1, 0, u32::MAX, -21);
    p1.answers(1, u32::MAX, u32::MAX, -21);
    p1.answers(1, 80, 80, -22);
}

/// Frame F is row 0 again, and the frames after it follow.
#[test]
fn frames_of_the_second_cycle() {
    let one = Planned::new(request(&[(3, 10, 10, 0)], &[]), table(10, 10, "0.0"));
    one.answers(7, 0, 20, 0);
    one.answers(7, 1, 20, 1);
    one.answers(7, 10, 20, 1);
    one.answers(7, 11, 20, -22);
    one.answers(8, 0, 20, -22);
    let free = Planned::new(
        request(&[(5, 20, 20, 0)], &[]),
        table(5, 20, " / 0.0 /  / "),
    );
    free.answers(5, 16, 40, 4);
    free.answers(5, 20, 25, 4);
    free.answers(5, 21, 40, 6);
    free.answers(5, 35, 40, 7);
}

/// A carried entry counts also in the first cycle, in which it is not served.
#[test]
fn carried_entries_count_from_the_first_frame() {
    let p7 = p7();
    p7.answers(3, 0, 20, 0);
    p7.answers(4, 0, 5, -22);
    p7.answers(4, 0, 20, 1);
    p7.answers(3, 10, 15, 2);
    p7.answers(3, 6, 15, 2);
    p7.answers(4, 10, 15, -22);
    p7.answers(5, 6, 20, 3);
    p7.answers(6, 0, 20, -22);
}

#[test]
fn a_row_full_of_carried_entries() {
    let full = Planned::new(request(&[(5, 10, 9, 6)], &[]), table(5, 10, "0.0+ / "));
    full.answers(1, 0, 5, -22);
    full.answers(1, 0, 20, 1);
    full.answers(1, 10, 15, -22);
    full.answers(5, 10, 20, 3);
    let two = Planned::new(
        request(&[(2, 10, 9, 6), (3, 10, 9, 6)], &[]),
        table(5, 10, "0.0+ 1.0+ / "),
    );
    two.answers(1, 0, 5, -22);
    two.answers(1, 10, 15, -22);
    two.answers(5, 0, 10, 1);
}

/// Silent ticks stand behind each entry and behind the extra transfer.
#[test]
fn silent_ticks_count() {
    let silent = silent_request(&[(5, 20, 20, 0), (4, 20, 20, 0)], &[], 2);
    let silent = Planned::new(silent, table(20, 20, "0.0 1.0"));
    silent.answers(5, 0, 40, 0);
    silent.answers(6, 0, 40, -22);
    let most = Planned::new(
        silent_request(&[(1, 40, 40, 0)], &[], 15),
        table(20, 40, "0.0 / "),
    );
    most.answers(5, 0, 80, 1);
    most.answers(6, 0, 80, -22);
    most.answers(1, 0, 20, -22);
}

/// No sum with a long length wraps, whatever the silent ticks are.
#[test]
fn the_longest_lengths() {
    for g in 0..=15 {
        let bytes = silent_request(&[(1, 40, 40, 0)], &[], g);
        let planned = Planned::new(bytes, table(40, 40, "0.0"));
        for below in 0..=20 {
            planned.answers(u32::MAX - below, 0, 80, -22);
        }
        planned.answers(u32::MAX, 80, 79, -21);
        planned.answers((39 - 2 * g) as u32, 0, 80, 0);
        planned.answers((40 - 2 * g) as u32, 0, 80, -22);
    }
}

/// The longest cycle has frames up to 20,000, and the most rows frames up to 511.
#[test]
fn the_largest_tables() {
    let long = Planned::new(sheet::p12(), table(10_000, 10_000, "0.0"));
    long.answers(9_999, 0, 20_000, 0);
    long.answers(9_999, 1, 20_000, 1);
    long.answers(9_999, 1, 19_999, -22);
    long.answers(9_999, 1, 20_001, -21);
    let many = sheet::p9();
    let rows = plan(subject(), &many).expect("it has a table");
    let many = Planned::new(many, rows);
    many.answers(1, 0, 512, 1);
    many.answers(1, 256, 257, -22);
    many.answers(1, 256, 512, 257);
    many.answers(1, 511, 512, 511);
    many.answers(1, 511, 513, -21);
}

/// Request and table are judged first, then what is asked, then whether a frame fits.
#[test]
fn the_order_of_the_numbers() {
    let (good, rows) = (sheet::p1(), table(20, 40, "0.0 1.0 2.0 / 0.1 1.1"));
    let bad = (0, 9, 8);
    answers(&good[1..], &rows, bad, -3);
    answers(&good[..9], &rows, bad, -1);
    answers(&[&good[..], &[2]].concat(), &rows, bad, -17);
    answers(&[&good[..], &[0, 0]].concat(), &rows, bad, -6);
    answers(&good, &rows[1..], bad, -12);
    answers(&good, &table(20, 20, "0.0 1.0 2.0"), bad, -13);
    answers(&good, &table(20, 40, "0.0 1.0 / 0.1 1.1"), bad, -14);
    answers(&[], &[], bad, -1);
    answers(&good, &[], bad, -12);
    let (long, many) = (sheet::p12_long(), sheet::p11());
    answers(&long, &rows, bad, -7);
    answers(&many, &rows, bad, -8);
    for three in [
        (0, 0, 80),
        (1, 41, 40),
        (1, 0, 81),
        (0, 41, 40),
        (11, 81, 80),
        (0, 40, 40),
    ] {
        answers(&good, &rows, three, -21);
    }
    answers(&good, &rows, (11, 0, 80), -22);
}

/// Every short length between any two ticks, beside the words: each frame is tried.
#[test]
fn everything_that_may_be_asked() {
    let silent = silent_request(&[(2, 8, 8, 0), (1, 16, 16, 3)], &[], 1);
    let silent_rows = plan(subject(), &silent).expect("it has a table");
    let p3 = plan(subject(), &sheet::p3()).expect("it has a table");
    let all = [
        p1(),
        p7(),
        Planned::new(sheet::p3(), p3),
        Planned::new(silent, silent_rows),
    ];
    let (mut frames, mut none) = (0, 0);
    for planned in &all {
        let cycle = read_cycle(&planned.request).expect("it was checked");
        let read = decode(&planned.table).expect("it was checked");
        let (f, h, g) = (read.f, cycle.h, cycle.request.g);
        let unused = |k: i64| {
            let row = &read.rows[(k % (h / f)) as usize];
            let tasks = row
                .iter()
                .map(|entry| &cycle.request.tasks[entry.task as usize]);
            f - tasks.map(|task| task.c + g).sum::<i64>()
        };
        for from in 0..=2 * h + 1 {
            for until in 0..=2 * h + 1 {
                for length in 0..=f + 1 {
                    let fits =
                        |k: &i64| k * f >= from && (k + 1) * f <= until && length + g <= unused(*k);
                    let expected = if length == 0 || from > until || until > 2 * h {
                        -21
                    } else {
                        (0..2 * h).find(fits).unwrap_or(-22)
                    };
                    let three = (length as u32, from as u32, until as u32);
                    answers(&planned.request, &planned.table, three, expected as i32);
                    frames += u64::from(expected >= 0);
                    none += u64::from(expected == -22);
                }
            }
        }
    }
    assert!(frames > 10_000 && none > 10_000, "{frames} {none}");
}

/// Every value of every byte of a request and of its table.
#[test]
fn every_value_of_every_byte() {
    let planned = p1();
    let mut found = 0;
    let mut made = |request: Vec<u8>, table: Vec<u8>| {
        let call = Call::one_off(&request, &table, 5, 15, 80);
        let outcome = compare(subject(), &call).unwrap_or_else(|fault| panic!("{fault}"));
        found += u64::from(outcome.answer >= 0);
    };
    for value in 0..=255 {
        for at in 0..planned.request.len() {
            let mut bytes = planned.request.clone();
            bytes[at] = value;
            made(bytes, planned.table.clone());
        }
        for at in 0..planned.table.len() {
            let mut bytes = planned.table.clone();
            bytes[at] = value;
            made(planned.request.clone(), bytes);
        }
    }
    assert!(found > 40, "{found}");
}
