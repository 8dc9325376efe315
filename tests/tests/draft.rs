//! Jobs moved by hand: every byte of a draft after every move, and which number is given when several
//! would do.

use crate::common::drafts::{draft, made, moved, started, written};
use crate::common::{example, subject, subjects, table};
use bus_tests::bus::DRAFT_LEN;
use bus_tests::call::Call;
use bus_tests::compare::compare;
use bus_tests::reference::draft::{Draft, LIFTED};
use bus_tests::reference::model::plausible;
use bus_tests::reference::table::encode;
use bus_tests::reference::{planned, read_cycle};
use bus_tests::rounds::drafting::{call, Move};
use bus_tests::sheet::{self, request, silent_request, with_section};
use Move::{Lift, Put};

fn starts_as(request: &[u8], table: &[u8], expected: Result<Draft, i32>) {
    for (name, bus) in subjects() {
        assert_eq!(started(bus, request, table), expected, "{name}");
    }
}

/// The moves get these numbers one behind the other, and leave this draft; a refused one leaves the
/// draft as it was.
fn moves_as(request: &[u8], first: &Draft, steps: &[(Move, i32)], last: &Draft) {
    for (name, bus) in subjects() {
        let mut now = first.clone();
        for (step, number) in steps {
            let (answer, after) = moved(bus, request, &now, *step);
            assert_eq!(answer, -number, "{name}: {step:?} of {steps:?}");
            assert!(*number == 0 || after == now, "{name}: {step:?}");
            now = after;
        }
        assert_eq!(now, *last, "{name}: {steps:?}");
    }
}

/// One move gets this number.
fn answers(request: &[u8], draft: &Draft, step: Move, number: i32) {
    for (name, bus) in subjects() {
        let (answer, after) = moved(bus, request, draft, step);
        assert_eq!(answer, -number, "{name}: {step:?}");
        assert!(number == 0 || after == *draft, "{name}: {step:?}");
    }
}

/// The draft is written as this table, in a buffer of its length and in longer ones, and not in one
/// that is shorter.
fn writes_as(request: &[u8], draft: &Draft, table: &[u8]) {
    for (name, bus) in subjects() {
        for room in [table.len(), table.len() + 1, 519, 3_000] {
            let bytes = written(bus, request, draft, room);
            assert_eq!(bytes, Ok(table.to_vec()), "{name}");
        }
        for room in [table.len() - 1, 7, 1, 0] {
            assert_eq!(written(bus, request, draft, room), Err(11), "{name}");
        }
    }
}

/// The draft is not written, whatever the room.
fn not_written(request: &[u8], draft: &Draft, number: i32) {
    for (name, bus) in subjects() {
        for room in [0, 1, 519, 3_000] {
            assert_eq!(written(bus, request, draft, room), Err(number), "{name}");
        }
    }
}

/// P1's jobs are 0.0 1.0 2.0 0.1 1.1 in planning order.
fn p1_table() -> Vec<u8> {
    table(20, 40, "0.0 1.0 2.0 / 0.1 1.1")
}

fn p1_draft() -> Draft {
    draft(20, &[0, 0, 0, 1, 1], &[20, 10])
}

#[test]
fn p1_moved_by_hand() {
    let p1 = sheet::p1();
    starts_as(&p1, &p1_table(), Ok(p1_draft()));
    writes_as(&p1, &p1_draft(), &p1_table());
    let up = draft(20, &[0, 0, LIFTED, 1, 1], &[10, 10]);
    moves_as(&p1, &p1_draft(), &[(Lift(2), 0)], &up);
    not_written(&p1, &up, 26);
    let there = draft(20, &[0, 0, 1, 1, 1], &[10, 20]);
    let steps = [(Put(2, 2), 27), (Put(2, 1), 0), (Put(2, 0), 26)];
    moves_as(&p1, &up, &steps, &there);
    writes_as(&p1, &there, &table(20, 40, "0.0 1.0 / 0.1 1.1 2.0"));
}

/// The bytes as they stand in a draft, low byte first, and in the table that is written.
#[test]
fn the_bytes_of_a_draft() {
    let long = request(&[(300, 1_000, 1_000, 0), (200, 5_000, 5_000, 600)], &[]);
    let rows = table(500, 5_000, "0.0 / / 0.1 1.0 / / 0.2 / / 0.3 / / 0.4 /");
    let mut bytes = vec![0; DRAFT_LEN];
    bytes[0..2].copy_from_slice(&[0xF4, 0x01]);
    for (place, k) in [0, 2, 2, 4, 6, 8].into_iter().enumerate() {
        bytes[2 + 2 * place] = k;
    }
    for row in [0, 4, 6, 8] {
        bytes[258 + 2 * row..260 + 2 * row].copy_from_slice(&[0x2C, 0x01]);
    }
    bytes[262..264].copy_from_slice(&[0xF4, 0x01]);
    starts_as(&long, &rows, Ok(Draft::read(&bytes)));
    for (name, bus) in subjects() {
        let outcome = made(bus, &Call::draft_start(&long, &rows, &[7; DRAFT_LEN]));
        assert_eq!(outcome.buffers[0], bytes, "{name}");
        let outcome = made(bus, &Call::draft_lift(&long, 1, &bytes));
        let mut up = bytes.clone();
        up[4..6].fill(0xFF);
        up[262..264].copy_from_slice(&[0x2C, 0x01]);
        assert_eq!((outcome.answer, &outcome.buffers[0]), (0, &up), "{name}");
        let outcome = made(bus, &Call::draft_put(&long, 1, 9, &up));
        up[4..6].copy_from_slice(&[9, 0]);
        up[276..278].copy_from_slice(&[0xC8, 0x00]);
        assert_eq!((outcome.answer, &outcome.buffers[0]), (0, &up), "{name}");
    }
}

/// P3's jobs are 0.0 1.0 2.0 3.0 0.1 1.1 0.2 1.2 0.3, with the pair 2, 3. One unused place of each kind
/// has other content.
fn p3_draft(two: [u16; 2], loads: [u16; 6]) -> Draft {
    let mut made = draft(4, &[0, 0, two[0], two[1], 2, 2, 3, 5, 5, 77], &loads);
    made.loads[6] = 9;
    made
}

#[test]
fn p3_moved_by_hand() {
    let (p3, first) = (sheet::p3(), p3_draft([1, 4], [4, 4, 4, 2, 4, 4]));
    let steps = [
        (Lift(2), 0),
        (Lift(2), 26),
        (Lift(9), 26),
        (Lift(3), 0),
        (Put(3, 0), 28),
        (Put(3, 6), 27),
        (Put(3, LIFTED), 27),
        (Put(3, 1), 0),
        (Put(3, 1), 26),
        (Put(2, 4), 28),
        (Put(2, 1), 28),
        (Put(128, 0), 26),
        (Lift(3), 0),
        (Put(2, 1), 0),
        (Put(3, 4), 0),
    ];
    moves_as(&p3, &first, &steps, &first);
    let between = p3_draft([LIFTED, 1], [4, 4, 4, 2, 0, 4]);
    moves_as(
        &p3,
        &first,
        &[(Lift(2), 0), (Lift(3), 0), (Put(3, 1), 0)],
        &between,
    );
    let rows = table(4, 24, "0.0 1.0 / 2.0 / 0.1 1.1 / 0.2 / 3.0 / 0.3 1.2");
    writes_as(&p3, &first, &rows);
    starts_as(
        &p3,
        &rows,
        Ok(draft(4, &[0, 0, 1, 4, 2, 2, 3, 5, 5], &[4, 4, 4, 2, 4, 4])),
    );
}

/// P7's one job is carried: frame 2 in row 0 of two.
#[test]
fn p7_and_its_carried_job() {
    let (p7, rows) = (sheet::p7(), table(5, 10, "0.0+ / "));
    let first = draft(5, &[2], &[2]);
    starts_as(&p7, &rows, Ok(first.clone()));
    moves_as(&p7, &first, &[(Lift(0), 0)], &draft(5, &[LIFTED], &[]));
    let steps = [
        (Lift(0), 0),
        (Put(0, 0), 27),
        (Put(0, 1), 27),
        (Put(0, 3), 27),
        (Put(0, 4), 27),
        (Put(0, 2), 0),
    ];
    moves_as(&p7, &first, &steps, &first);
    writes_as(&p7, &first, &rows);
    for wrong in [draft(5, &[0], &[2]), draft(5, &[2], &[0, 0, 2])] {
        answers(&p7, &wrong, Lift(0), 26);
        not_written(&p7, &wrong, 26);
    }
}

/// With silent ticks a load counts C + g, and a row is full of these.
#[test]
fn silent_ticks_count() {
    let bytes = silent_request(&[(3, 20, 20, 0), (4, 20, 20, 0), (1, 20, 20, 0)], &[], 2);
    let rows = table(10, 20, "0.0 2.0 / 1.0");
    let first = draft(10, &[0, 1, 0], &[8, 6]);
    starts_as(&bytes, &rows, Ok(first.clone()));
    let full = draft(10, &[0, 1, 1], &[5, 9]);
    moves_as(&bytes, &first, &[(Lift(2), 0), (Put(2, 1), 0)], &full);
    moves_as(
        &bytes,
        &full,
        &[(Lift(0), 0), (Put(0, 1), 28)],
        &draft(10, &[LIFTED, 1, 1], &[0, 9]),
    );
    answers(&bytes, &draft(10, &[0, 1, 0], &[4, 4]), Lift(2), 26);
    not_written(&bytes, &draft(10, &[0, 1, 0], &[6, 4]), 26);
}

/// A row may be full to the tick, and not one tick fuller.
#[test]
fn full_to_the_tick() {
    for (c, number) in [(4, 0), (5, 28), (10, 28)] {
        for g in 0..3 {
            let tasks = [(6 - g, 20, 20, 0), (c - g, 20, 20, 0)];
            let bytes = silent_request(&tasks, &[], g);
            answers(&bytes, &draft(10, &[0, LIFTED], &[6]), Put(1, 0), number);
            let there = draft(10, &[0, 0], &[6 + c as u16]);
            answers(&bytes, &there, Lift(1), if number == 0 { 0 } else { 26 });
        }
    }
}

/// A pair is judged with a placed job on either side, and with no lifted one; equal frames are fine. A
/// pair that stands twice is one more of the same.
#[test]
fn pairs_on_either_side() {
    let tasks = [(1, 12, 12, 0); 3];
    for pairs in [&[(0, 1), (1, 2)][..], &[(0, 1), (1, 2), (1, 2), (0, 1)]] {
        let bytes = request(&tasks, pairs);
        let with = |frames: [u16; 3]| {
            let cycle = read_cycle(&bytes).expect("it is valid");
            draft(4, &frames, &[]).summed_up(&cycle)
        };
        for k in 0..3_u16 {
            let between = with([1, LIFTED, 1]);
            answers(&bytes, &between, Put(1, k), if k == 1 { 0 } else { 28 });
            let before = with([LIFTED, 1, LIFTED]);
            answers(&bytes, &before, Put(0, k), if k <= 1 { 0 } else { 28 });
            answers(&bytes, &before, Put(2, k), if k >= 1 { 0 } else { 28 });
            let ends = with([LIFTED, LIFTED, 0]);
            answers(&bytes, &ends, Put(0, k), 0);
            answers(&bytes, &ends, Put(1, k), if k == 0 { 0 } else { 28 });
        }
        for wrong in [[2, 1, 2], [0, 2, 1], [1, 0, LIFTED], [LIFTED, 2, 0]] {
            answers(&bytes, &with(wrong), Lift(1), 26);
            answers(&bytes, &with(wrong), Put(0, 0), 26);
            not_written(&bytes, &with(wrong), 26);
        }
        answers(&bytes, &with([2, LIFTED, 0]), Put(1, 1), 28);
        answers(&bytes, &with([2, LIFTED, 0]), Lift(0), 0);
        answers(&bytes, &with([1, 1, 1]), Lift(1), 0);
    }
}

/// Pairs compare frames and not rows, and jobs of one number only.
#[test]
fn pairs_of_carried_jobs() {
    let bytes = request(&[(1, 12, 8, 0), (1, 12, 12, 8)], &[(0, 1)]);
    let rows = table(4, 12, "1.0+ / 0.0 / ");
    let first = draft(4, &[1, 3], &[1, 1]);
    starts_as(&bytes, &rows, Ok(first.clone()));
    let steps = [
        (Lift(1), 0),
        (Put(1, 0), 27),
        (Put(1, 4), 0),
        (Lift(0), 0),
        (Put(0, 0), 0),
        (Lift(1), 0),
        (Put(1, 2), 0),
    ];
    moves_as(&bytes, &first, &steps, &draft(4, &[0, 2], &[1, 0, 1]));
    let two = request(&[(1, 6, 6, 0), (1, 6, 6, 0), (1, 12, 12, 0)], &[(0, 1)]);
    let apart = draft(3, &[0, 0, 0, LIFTED, 2], &[3, 0, 1]);
    answers(&two, &apart, Put(3, 3), 28);
    answers(&two, &apart, Put(3, 2), 0);
}

/// The second task of a pair may be released before the first.
#[test]
fn pairs_released_the_other_way_round() {
    let bytes = request(&[(1, 12, 9, 3), (1, 12, 12, 0)], &[(0, 1)]);
    let first_up = draft(3, &[2, LIFTED], &[0, 0, 1]);
    for (k, number) in [(0, 27), (1, 0), (2, 0), (3, 28), (4, 27)] {
        answers(&bytes, &first_up, Put(1, k), number);
    }
    let second_up = draft(3, &[LIFTED, 2], &[0, 0, 1]);
    for (k, number) in [(0, 28), (1, 28), (2, 0), (3, 0), (4, 27)] {
        answers(&bytes, &second_up, Put(0, k), number);
    }
}

/// A draft that is written as it was started gives the table's own bytes.
#[test]
fn started_and_written_is_the_table() {
    for name in ["p1.req", "p3.req", "p7.req"] {
        let bytes = example(name);
        let rows = encode(&planned(&bytes).expect("it has a table"));
        for (name, bus) in subjects() {
            let first = started(bus, &bytes, &rows).expect("it is its table");
            assert_eq!(
                written(bus, &bytes, &first, 519),
                Ok(rows.clone()),
                "{name}"
            );
        }
    }
}

/// Each kind of a damaged draft of P1 or P3, with all else in order.
fn damaged() -> Vec<(Vec<u8>, Draft)> {
    let (p1, p3, p5) = (sheet::p1(), sheet::p3(), sheet::p5());
    let mut all = vec![
        (p1.clone(), draft(0, &[], &[])),
        (p1.clone(), draft(0, &[0, 0, 0, 1, 1], &[20, 10])),
        (p1.clone(), draft(8, &[0, 0, 0, 3, 3], &[20, 0, 0, 10])),
        (p1.clone(), draft(8, &[LIFTED; 5], &[])),
        (p1.clone(), draft(7, &[LIFTED; 5], &[])),
        (p1.clone(), draft(80, &[LIFTED; 5], &[])),
        (p1.clone(), draft(65_535, &[LIFTED; 5], &[])),
        (p1.clone(), draft(20, &[0, 0, 0, 1, 1], &[20, 11])),
        (p1.clone(), draft(20, &[0, 0, 0, 1, 1], &[10, 20])),
        (p1.clone(), draft(20, &[0, 0, 0, 1, 1], &[19, 10])),
        (p1.clone(), draft(20, &[0, 0, 0, 1, 1], &[0, 0, 20, 10])),
        (p1.clone(), draft(20, &[0, 0, LIFTED, 1, 1], &[20, 10])),
        (p1.clone(), draft(20, &[0, 0, 1, 0, 1], &[15, 15])),
        (p1.clone(), draft(20, &[0, 0, 2, 1, 1], &[20, 10])),
        (p1.clone(), draft(20, &[2, 0, 0, 1, 1], &[20, 10])),
        (p1.clone(), draft(20, &[0, 0, 0, 1, 65_534], &[25, 5])),
        (p1.clone(), draft(10, &[0, 0, 1, 2, 3], &[10, 10, 5, 4])),
        (p3.clone(), p3_draft([4, 1], [4, 4, 4, 2, 4, 4])),
        (p5, draft(20, &[0, 0, 0, 1, 1], &[25, 15])),
    ];
    let sixteen = request(&[(4_096, 10_000, 10_000, 0); 16], &[]);
    all.push((sixteen.clone(), draft(10_000, &[], &[])));
    let fifteen = [&[0; 15][..], &[LIFTED]].concat();
    all.push((sixteen, draft(10_000, &fifteen, &[61_440])));
    let seven = request(&[(9_363, 10_000, 10_000, 0); 7], &[]);
    all.push((seven, draft(10_000, &[], &[5])));
    all
}

#[test]
fn damaged_drafts_of_each_kind() {
    for (request, wrong) in damaged() {
        let jobs = read_cycle(&request).expect("it is valid").jobs.len();
        for job in 0..=jobs as u8 {
            answers(&request, &wrong, Lift(job), 26);
            for k in [0, 1, 2, 9, LIFTED] {
                answers(&request, &wrong, Put(job, k), 26);
            }
        }
        not_written(&request, &wrong, 26);
    }
}

/// With every job of P1 lifted, a put tells which frame lengths are plausible.
#[test]
fn every_frame_length() {
    for bytes in [sheet::p1(), sheet::p1_silent(), sheet::p8()] {
        let cycle = read_cycle(&bytes).expect("it is valid");
        let mut plausible_ones = 0;
        for f in 0..=u16::MAX {
            let up = draft(f, &vec![LIFTED; cycle.jobs.len()], &[]);
            let outcome = compare(subject(), &call(&bytes, Put(0, 0), &up.bytes()));
            let answer = outcome.unwrap_or_else(|fault| panic!("{fault}")).answer;
            let right = plausible(&cycle, f.into());
            assert_eq!(answer != -26, right, "{f}");
            plausible_ones += u32::from(right);
        }
        assert!(plausible_ones > 0);
    }
}

/// A row's sum is compared as a whole number.
#[test]
fn sums_above_65535() {
    for (count, c) in [(16, 4_096), (8, 8_192), (9, 7_282), (7, 9_363), (16, 4_100)] {
        let bytes = request(&vec![(c, 10_000, 10_000, 0); count], &[]);
        let sum = (count as i64 * c - 65_536) as u16;
        let wide = draft(10_000, &[], &[sum]);
        answers(&bytes, &wide, Lift(0), 26);
        answers(&bytes, &wide, Put(0, 0), 26);
        not_written(&bytes, &wide, 26);
        let one = draft(
            10_000,
            &[&[0][..], &vec![LIFTED; count - 1]].concat(),
            &[c as u16],
        );
        answers(&bytes, &one, Lift(0), 0);
    }
}

/// A draft's buffer below 770 bytes is refused before everything else, whatever it holds.
#[test]
fn short_drafts() {
    let (p1, rows) = (sheet::p1(), p1_table());
    let whole = p1_draft().bytes();
    for (name, bus) in subjects() {
        for length in [0, 1, 2, 64, 258, 768, 769] {
            let short = &whole[..length];
            for request in [&p1[..], &[], &[17]] {
                let calls = [
                    Call::draft_start(request, &rows, short),
                    Call::draft_start(request, &[], short),
                    Call::draft_lift(request, 2, short),
                    Call::draft_lift(request, 200, short),
                    Call::draft_put(request, 2, 1, short),
                    Call::draft_put(request, 2, LIFTED, short),
                    Call::draft_write(request, short, &[0; 519]),
                    Call::draft_write(request, short, &[]),
                ];
                for call in calls {
                    let outcome = made(bus, &call);
                    assert_eq!(outcome.answer, -99, "{name}: {}", call.describe());
                }
            }
        }
    }
}

/// One fault of each of the numbers that a request is refused with.
fn bad_request(number: i32) -> Vec<u8> {
    match number {
        1 => sheet::p3()[..20].to_vec(),
        2 => vec![17],
        3 => request(&[(3, 8, 2, 0)], &[]),
        4 => vec![1, 1, 0, 8, 0, 8, 0, 0, 0, 17],
        5 => request(&[(1, 8, 8, 0), (1, 9, 9, 0)], &[(0, 1)]),
        6 => with_section(sheet::p1(), &[1, 2, 0]),
        7 => sheet::p12_long(),
        8 => sheet::p11(),
        _ => with_section(sheet::p1(), &[1, 16]),
    }
}

const OWN: [i32; 9] = [1, 2, 3, 4, 5, 6, 7, 8, 17];

fn own_or_none() -> Vec<Option<i32>> {
    [None].into_iter().chain(OWN.map(Some)).collect()
}

/// Asserts the number of the first fault that is met.
fn first_of(faults: &[(bool, i32)], calls: &[Call]) {
    let met = faults.iter().find(|(met, _)| *met);
    let expected = met.map_or(0, |(_, number)| *number);
    for call in calls {
        for (name, bus) in subjects() {
            let outcome = made(bus, call);
            let same = outcome.answer == -expected || expected == 0 && outcome.answer >= 0;
            assert!(same, "{name}: {} for {faults:?}", outcome.answer);
        }
    }
}

fn lent(draft: &Draft, short: bool) -> Vec<u8> {
    let mut bytes = draft.bytes();
    bytes.truncate(DRAFT_LEN - usize::from(short));
    bytes
}

/// Starting refuses a short draft, then as the check does.
#[test]
fn the_order_of_starting() {
    let bad_tables = [
        (12, vec![0]),
        (13, table(20, 20, "0.0 1.0 2.0")),
        (14, table(20, 40, "0.0 1.0 / 0.1 1.1")),
        (0, p1_table()),
    ];
    for short in [false, true] {
        for fault in own_or_none() {
            let bytes = fault.map_or(sheet::p1(), bad_request);
            for (number, table) in &bad_tables {
                let call = Call::draft_start(&bytes, table, &lent(&p1_draft(), short));
                let own = (fault.is_some(), fault.unwrap_or(0));
                first_of(&[(short, 99), own, (*number != 0, *number)], &[call]);
            }
        }
    }
}

/// P3 with job 3.0 lifted, and the same with a wrong load.
fn good_and_wrong() -> [Draft; 2] {
    let good = p3_draft([1, LIFTED], [4, 4, 4, 2, 0, 4]);
    let mut wrong = good.clone();
    wrong.loads[3] = 3;
    [good, wrong]
}

/// Every set of faults of a lift: the one that is judged first gives its number.
#[test]
fn every_set_of_faults_of_a_lift() {
    let drafts = good_and_wrong();
    for set in 0..4 {
        let [short, badly] = [1, 2].map(|bit| set & bit != 0);
        let draft = lent(&drafts[usize::from(badly)], short);
        for fault in own_or_none() {
            let bytes = fault.map_or(sheet::p3(), bad_request);
            let own = (fault.is_some(), fault.unwrap_or(0));
            let lift = |job: u8| Call::draft_lift(&bytes, job, &draft);
            first_of(&[(short, 99), own, (badly, 26)], &[0, 2, 8].map(lift));
            let unknown_or_lifted = [3, 9, 127, 128, 131, 255].map(lift);
            first_of(&[(short, 99), own, (true, 26)], &unknown_or_lifted);
        }
    }
}

/// Every set of faults of a put. Rows 0, 2 and 5 are full, and frame 0 is before the frame of 2.0, which
/// is 1; frames from 6 on are outside the window of 3.0, and 10 and 16 would be in row 4.
#[test]
fn every_set_of_faults_of_a_put() {
    let drafts = good_and_wrong();
    for set in 0..16 {
        let [short, badly, outside, no_place] = [1, 2, 4, 8].map(|bit| set & bit != 0);
        let draft = lent(&drafts[usize::from(badly)], short);
        let frames: &[u16] = match (outside, no_place) {
            (false, false) => &[4],
            (false, true) => &[0, 1, 2, 5],
            (true, false) => &[10, 16],
            (true, true) => &[6, 7, 8, LIFTED],
        };
        for fault in own_or_none() {
            let bytes = fault.map_or(sheet::p3(), bad_request);
            let puts = |job: u8| -> Vec<Call> {
                let put = |k: &u16| Call::draft_put(&bytes, job, *k, &draft);
                frames.iter().map(put).collect()
            };
            let front = [(short, 99), (fault.is_some(), fault.unwrap_or(0))];
            let later = [(badly, 26), (outside, 27), (no_place, 28)];
            first_of(&[&front[..], &later].concat(), &puts(3));
            for unknown_or_placed in [0, 2, 8, 9, 128, 131, 255] {
                let all = [&front[..], &[(true, 26)]].concat();
                first_of(&all, &puts(unknown_or_placed));
            }
        }
    }
}

/// Every set of faults of writing. A draft is also wrong with a job lifted.
#[test]
fn every_set_of_faults_of_writing() {
    let whole = p3_draft([1, 4], [4, 4, 4, 2, 4, 4]);
    let mut wrong = whole.clone();
    wrong.loads[3] = 3;
    let [lifted, lifted_and_wrong] = good_and_wrong();
    for set in 0..4 {
        let [short, no_room] = [1, 2].map(|bit| set & bit != 0);
        let out = vec![0; 31 - usize::from(no_room)];
        for fault in own_or_none() {
            let bytes = fault.map_or(sheet::p3(), bad_request);
            for (place, held) in [&whole, &wrong, &lifted, &lifted_and_wrong]
                .iter()
                .enumerate()
            {
                let own = (fault.is_some(), fault.unwrap_or(0));
                let all = [(short, 99), own, (place > 0, 26), (no_room, 11)];
                first_of(&all, &[Call::draft_write(&bytes, &lent(held, short), &out)]);
            }
        }
    }
}

/// The last places of a draft: 256 rows, a carried job in frame 510, and the load of row 255.
#[test]
fn the_last_rows() {
    let bytes = request(&[(1, 256, 256, 255)], &[]);
    let up = draft(1, &[LIFTED], &[]);
    for (k, row, number) in [
        (254, 0, 27),
        (255, 255, 0),
        (256, 0, 0),
        (510, 254, 0),
        (511, 0, 27),
    ] {
        let mut there = draft(1, &[k], &[]);
        there.loads[row] = 1;
        let after = if number == 0 { &there } else { &up };
        moves_as(&bytes, &up, &[(Put(0, k), number)], after);
        if number == 0 {
            moves_as(&bytes, &there, &[(Lift(0), 0)], &up);
            let carry = if k >= 256 { "+" } else { "" };
            let rows = [vec!["/"; row], vec!["0.0", carry], vec!["/"; 255 - row]].concat();
            let rows = table(1, 256, &rows.concat());
            writes_as(&bytes, &there, &rows);
            starts_as(&bytes, &rows, Ok(there));
        }
    }
}

/// A request with 128 jobs: 64 + 32 + 16 + 8 + 4 + 2 + 1 + 1.
fn most_jobs() -> Vec<u8> {
    let periods = [10, 20, 40, 80, 160, 320, 640, 640];
    request(&periods.map(|t| (1, t, t, 0)), &[])
}

/// Every job number: known ones are lifted and put back, all others are unknown.
#[test]
fn every_job_number() {
    for bytes in [sheet::p1(), sheet::p3(), sheet::p7(), most_jobs()] {
        let jobs = read_cycle(&bytes).expect("it is valid").jobs.len();
        let rows = encode(&planned(&bytes).expect("it has a table"));
        for (name, bus) in subjects() {
            let first = started(bus, &bytes, &rows).expect("it is its table");
            for job in 0..=255_u8 {
                let (answer, up) = moved(bus, &bytes, &first, Lift(job));
                let known = usize::from(job) < jobs;
                assert_eq!(answer, if known { 0 } else { -26 }, "{name}: {job}");
                let k = first.frames.get(usize::from(job)).map_or(0, |k| *k);
                let (answer, back) = moved(bus, &bytes, &up, Put(job, k));
                assert_eq!(answer, if known { 0 } else { -26 }, "{name}: {job}");
                assert_eq!(back, first, "{name}: {job}");
            }
        }
    }
}

/// Every frame that a put can name; how many are taken.
fn taken_frames(request: &[u8], up: &Draft, job: u8) -> Vec<u16> {
    let take = |k: &u16| {
        let outcome = compare(subject(), &call(request, Put(job, *k), &up.bytes()));
        outcome.unwrap_or_else(|fault| panic!("{fault}")).answer == 0
    };
    (0..=u16::MAX).filter(take).collect()
}

#[test]
fn every_frame() {
    let up = p3_draft([1, LIFTED], [4, 4, 4, 2, 0, 4]);
    assert_eq!(taken_frames(&sheet::p3(), &up, 3), [4]);
    assert_eq!(
        taken_frames(&sheet::p7(), &draft(5, &[LIFTED], &[]), 0),
        [2]
    );
    let long = request(&[(1, 4_096, 4_096, 4_000)], &[]);
    let taken: Vec<u16> = (250..=505).collect();
    assert_eq!(taken_frames(&long, &draft(16, &[LIFTED], &[]), 0), taken);
}

/// Every value of every byte of a draft that is in use, in a lift, a put and writing; and all other
/// bytes are kept and not judged.
#[test]
fn every_value_of_every_byte() {
    let p1 = sheet::p1();
    let up = draft(20, &[0, 0, LIFTED, 1, 1], &[10, 10]).bytes();
    let whole = p1_draft().bytes();
    let used: Vec<usize> = (0..12).chain(258..262).collect();
    let accepted = |call: Call| {
        let outcome = compare(subject(), &call).unwrap_or_else(|fault| panic!("{fault}"));
        usize::from(outcome.answer >= 0)
    };
    let changed = |bytes: &[u8], at: usize, value: u8| {
        let mut bytes = bytes.to_vec();
        bytes[at] = value;
        bytes
    };
    let (mut lifts, mut puts, mut writes) = (0, 0, 0);
    for at in used.iter().copied() {
        for value in 0..=255 {
            lifts += accepted(Call::draft_lift(&p1, 0, &changed(&up, at, value)));
            puts += accepted(Call::draft_put(&p1, 2, 1, &changed(&up, at, value)));
            let draft = changed(&whole, at, value);
            writes += accepted(Call::draft_write(&p1, &draft, &[0; 30]));
        }
    }
    // The draft itself, once for each byte.
    assert_eq!((lifts, puts, writes), (16, 16, 16));
    for at in (0..DRAFT_LEN).filter(|at| !used.contains(at)) {
        for value in [1, 20, 255] {
            let lift = Call::draft_lift(&p1, 0, &changed(&up, at, value));
            let put = Call::draft_put(&p1, 2, 1, &changed(&up, at, value));
            let draft = changed(&whole, at, value);
            let write = Call::draft_write(&p1, &draft, &[0; 30]);
            assert_eq!([lift, put, write].map(accepted), [1, 1, 1], "{at}");
        }
    }
}
