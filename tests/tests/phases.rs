//! Which phases still fit: worked cases, edges, which number is given when several would do, small
//! requests whole, and the time that it takes.

use crate::common::phases::{counted, planned_ends};
#[cfg(feature = "linked")]
use crate::common::tell;
use crate::common::{subject, subjects};
use bus_tests::bus::COUNTS_LEN;
use bus_tests::call::Call;
#[cfg(feature = "linked")]
use bus_tests::clock::seconds_used;
use bus_tests::compare::compare;
use bus_tests::reference::phases::{counts, with_phase};
use bus_tests::sheet::{self, request, silent_request, Short};

/// The phases of the task, with so many tries allowed, lead to a table, to 9, to 10 and to 23 so often;
/// and so they do if the subject plans them one by one.
fn counts_within(request: &[u8], task: u8, allowance: u64, four: [u16; 4]) {
    for (name, bus) in subjects() {
        let actual = counted(bus, request, task, allowance);
        assert_eq!(actual, Ok(four), "{name}: task {task}, {allowance} tries");
    }
    let ends = planned_ends(subject(), request, task, allowance);
    assert_eq!(counts(&ends), four, "planned one by one");
}

fn counts_freely(request: &[u8], task: u8, four: [u16; 4]) {
    counts_within(request, task, u64::MAX, four);
}

fn refused(request: &[u8], task: u8, number: i32) {
    for (name, bus) in subjects() {
        for allowance in [0, 7, u64::MAX] {
            let actual = counted(bus, request, task, allowance);
            assert_eq!(actual, Err(number), "{name}: task {task}");
        }
    }
}

/// (3,10,5,2) of R-5. A frame of 5 ticks holds the transfer, and lies whole in the window if that
/// begins with a frame, at 0 or at 5. With silent ticks behind the transfer it is too short.
#[test]
fn frames_begin_at_two_phases() {
    counts_freely(&sheet::p8_long(), 0, [2, 8, 0, 0]);
    counts_within(&sheet::p8_long(), 0, 1, [2, 8, 0, 0]);
    counts_within(&sheet::p8_long(), 0, 0, [0, 8, 0, 2]);
    let silent = silent_request(&[(3, 10, 5, 2)], &[], 3);
    counts_freely(&silent, 0, [0, 10, 0, 0]);
}

/// Two transfers that fill more than the one frame that there is: 10 at phase 0. At phase 1 no frame of
/// 2 ticks lies in the window of the first: 9.
#[test]
fn ten_and_nine() {
    let both = request(&[(1, 2, 2, 0), (2, 2, 2, 0)], &[]);
    counts_freely(&both, 0, [0, 1, 1, 0]);
    counts_within(&both, 0, 0, [0, 1, 0, 1]);
    counts_freely(&both, 1, [0, 1, 1, 0]);
}

/// Task 0 runs before task 1, its window is from 3 to 7. With phase 0 task 1 has to be over by 4, and
/// task 0 is placed in no frame before. Up to phase 2 task 1 is planned first, and tries frames in
/// which task 0 cannot come before it: the searches need 24, 19 and 4 tries, those from phase 3 on 2.
#[test]
fn the_planning_order_turns() {
    let turned = request(&[(1, 8, 4, 3), (1, 8, 4, 5)], &[(0, 1)]);
    for (allowance, four) in [
        (u64::MAX, [7, 0, 1, 0]),
        (24, [7, 0, 1, 0]),
        (23, [7, 0, 0, 1]),
        (19, [7, 0, 0, 1]),
        (18, [6, 0, 0, 2]),
        (4, [6, 0, 0, 2]),
        (3, [5, 0, 0, 3]),
        (2, [5, 0, 0, 3]),
        (1, [0, 0, 0, 8]),
        (0, [0, 0, 0, 8]),
    ] {
        counts_within(&turned, 1, allowance, four);
    }
    let ends = planned_ends(subject(), &turned, 1, u64::MAX);
    assert_eq!(ends, [10, 0, 0, 0, 0, 0, 0, 0]);
}

/// P1: another phase of task 0 or 1 rules frames of 20 ticks out, and those of 10 have a plan; task 2
/// fits into either row. P2: no frame is long enough for 8 ticks and short enough for 6. P5: the jobs
/// fill the cycle, and two of task 0 cannot share a row.
#[test]
fn the_bench_sheet() {
    counts_freely(&sheet::p1(), 0, [20, 0, 0, 0]);
    counts_freely(&sheet::p1(), 1, [20, 0, 0, 0]);
    counts_freely(&sheet::p1(), 2, [40, 0, 0, 0]);
    counts_freely(&sheet::p2(), 0, [0, 6, 0, 0]);
    counts_freely(&sheet::p2(), 1, [0, 8, 0, 0]);
    counts_freely(&sheet::p2(), 2, [0, 24, 0, 0]);
    counts_freely(&sheet::p5(), 0, [0, 0, 20, 0]);
    counts_freely(&sheet::p5(), 2, [0, 0, 40, 0]);
    counts_freely(&sheet::p7(), 0, [10, 0, 0, 0]);
    counts_freely(&sheet::p8(), 0, [10, 0, 0, 0]);
}

/// P6: task 2 leaves frames of 20 ticks alone, and is to begin with one. Tasks 0 and 1 need a row each.
/// Task 1, from 15 to 60, has frames 1 and 2, so one is left for every phase of task 0. Task 0, from 10
/// to 50, has frame 1 alone, and so has task 1 with the phases 1 to 14.
#[test]
fn p6_by_its_frames() {
    counts_freely(&sheet::p6(), 0, [60, 0, 0, 0]);
    counts_freely(&sheet::p6(), 1, [46, 0, 14, 0]);
    counts_freely(&sheet::p6(), 2, [1, 19, 0, 0]);
}

/// A silent tick after each transfer takes time of its frame too. Transfers of 5 and 3 ticks fit into
/// frames of 5; with one silent tick they just fit into one of 10, with two they do not.
#[test]
fn silent_ticks_count() {
    let tasks = [(5, 10, 10, 0), (3, 10, 10, 0)];
    counts_freely(&request(&tasks, &[]), 0, [10, 0, 0, 0]);
    counts_freely(&silent_request(&tasks, &[], 1), 0, [1, 9, 0, 0]);
    counts_freely(&silent_request(&tasks, &[], 2), 0, [0, 9, 1, 0]);
}

/// One phase: that of a task with period 1.
#[test]
fn the_shortest_period() {
    let one = request(&[(1, 1, 1, 0)], &[]);
    counts_freely(&one, 0, [1, 0, 0, 0]);
    counts_within(&one, 0, 1, [1, 0, 0, 0]);
    counts_within(&one, 0, 0, [0, 0, 0, 1]);
    counts_freely(&request(&[(1, 1, 1, 0); 2], &[]), 1, [0, 0, 1, 0]);
}

/// Counts above a byte, and the longest period, with every phase in each of the four.
#[test]
fn the_longest_periods() {
    counts_freely(&sheet::p9(), 0, [256, 0, 0, 0]);
    counts_freely(&sheet::p10(), 0, [0, 257, 0, 0]);
    let long = sheet::p12();
    counts_freely(&long, 0, [10_000, 0, 0, 0]);
    counts_within(&long, 0, 1, [10_000, 0, 0, 0]);
    counts_within(&long, 0, 0, [0, 0, 0, 10_000]);
    counts_freely(&request(&[(1, 10_000, 1, 0)], &[]), 0, [0, 10_000, 0, 0]);
    let three = request(&[(5_000, 10_000, 10_000, 0); 3], &[]);
    counts_freely(&three, 2, [0, 0, 10_000, 0]);
    let full = request(&[(10_000, 10_000, 10_000, 0); 2], &[]);
    counts_freely(&full, 1, [0, 9_999, 1, 0]);
}

/// The request's own phase of the task is one of those that are counted, and no other matters.
#[test]
fn its_own_phase_does_not_matter() {
    let turned = request(&[(1, 8, 4, 3), (1, 8, 4, 5)], &[(0, 1)]);
    let silent = silent_request(&[(2, 12, 9, 4), (3, 6, 5, 1), (1, 6, 6, 0)], &[(1, 2)], 1);
    for (bytes, task, period) in [(turned, 1, 8), (silent, 0, 12)] {
        for (name, bus) in subjects() {
            for allowance in [0, 1, 3, 18, u64::MAX] {
                let four = counted(bus, &bytes, task, allowance);
                for phase in 0..period {
                    let shifted = with_phase(&bytes, usize::from(task), phase);
                    let again = counted(bus, &shifted, task, allowance);
                    assert_eq!(again, four, "{name}: {phase}");
                }
            }
        }
    }
}

/// Each number of the request comes before 16, those of its cycle too, and 99 before all.
#[test]
fn the_order_of_the_numbers() {
    let p1 = sheet::p1();
    let tasks = [(1, 8, 8, 0), (1, 8, 8, 0)];
    let mut four = request(&tasks, &[]);
    four[17] = 17;
    for (bytes, number) in [
        (vec![], 1),
        (p1[..p1.len() - 1].to_vec(), 1),
        (vec![0], 2),
        (vec![17], 2),
        (request(&[(0, 1, 1, 0)], &[]), 3),
        (request(&[(1, 8, 8, 8)], &[]), 3),
        (four, 4),
        (request(&tasks, &[(1, 0)]), 5),
        (sheet::with_section(p1.clone(), &[2]), 17),
        (sheet::with_section(p1.clone(), &[1, 16]), 17),
        (sheet::with_section(p1.clone(), &[0, 0]), 6),
        (sheet::p12_long(), 7),
        (sheet::p11(), 8),
    ] {
        for task in [0, 1, 2, 3, 15, 16, 17, 255] {
            refused(&bytes, task, number);
        }
        for (name, bus) in subjects() {
            let answer = bus.phases(&bytes, 255, 0, &mut [0; COUNTS_LEN - 1]);
            assert_eq!(answer, -99, "{name}");
        }
    }
    for task in 3..=255 {
        refused(&p1, task, 16);
    }
}

/// A request that planning refuses is counted all the same, with its own number for its own phase.
#[test]
fn what_planning_refuses_is_counted() {
    for bytes in [sheet::p2(), sheet::p5(), sheet::p10(), sheet::p8_long()] {
        for (name, bus) in subjects() {
            assert!(bus.plan_freely(&bytes, &mut [0; 600]) < 0, "{name}");
            assert!(counted(bus, &bytes, 0, u64::MAX).is_ok(), "{name}");
        }
    }
}

/// Fewer than 8 bytes give 99, also for an unknown task, and nothing is written; bytes behind the first
/// 8 of a longer buffer stay.
#[test]
fn buffers_for_the_counts() {
    for (name, bus) in subjects() {
        for length in 0..COUNTS_LEN {
            for task in [0, 1, 200] {
                let mut bytes = vec![0xA5; length];
                let answer = bus.phases(&sheet::p8_long(), task, 9, &mut bytes);
                assert_eq!(answer, -99, "{name}");
                assert_eq!(bytes, vec![0xA5; length], "{name}");
            }
        }
        for length in [8, 9, 15, 16, 300, 70_000] {
            let mut bytes = vec![0xA5; length];
            assert_eq!(bus.phases(&sheet::p10(), 0, 9, &mut bytes), 0, "{name}");
            assert_eq!(bytes[..COUNTS_LEN], [0, 0, 1, 1, 0, 0, 0, 0], "{name}");
            assert!(bytes[COUNTS_LEN..].iter().all(|byte| *byte == 0xA5));
        }
    }
}

/// A larger allowance takes phases from 23 alone: 9 stays, and no table and no 10 is lost.
#[test]
fn a_larger_allowance() {
    let turned = request(&[(1, 8, 4, 3), (1, 8, 4, 5)], &[(0, 1)]);
    let crowded = request(&[(4, 12, 12, 0), (4, 12, 12, 2), (3, 12, 9, 5)], &[(0, 1)]);
    for (name, bus) in subjects() {
        for bytes in [&turned, &crowded, &sheet::p3(), &sheet::p5()] {
            let mut before = counted(bus, bytes, 1, 0).expect("it is counted");
            for allowance in 1..60 {
                let after = counted(bus, bytes, 1, allowance).expect("it is counted");
                let kept = after[0] >= before[0] && after[1] == before[1] && after[2] >= before[2];
                assert!(kept && after[3] <= before[3], "{name}: {allowance} tries");
                assert_eq!(after.iter().sum::<u16>(), before.iter().sum(), "{name}");
                before = after;
            }
        }
    }
}

/// The call made by the subject and by the reference; whether it was counted.
fn compared(request: &[u8], task: u8, allowance: u64) -> u64 {
    let call = Call::phases(request, task, allowance, &[0x3C; COUNTS_LEN]);
    let outcome = compare(subject(), &call).unwrap_or_else(|fault| panic!("{fault}"));
    u64::from(outcome.answer == 0)
}

/// Every task of a period up to `longest`, with phase 0.
fn short_tasks(longest: i64) -> Vec<Short> {
    let mut tasks = Vec::new();
    for t in 1..=longest {
        for d in 1..=t {
            tasks.extend((1..=d).map(|c| (c, t, d, 0)));
        }
    }
    tasks
}

/// Every request of one short task, and every one of two of which the second has any phase.
#[test]
fn every_small_request() {
    let mut made = 0;
    for task in short_tasks(10) {
        made += compared(&request(&[task], &[]), 0, 100);
    }
    for first in short_tasks(4) {
        for (c, t, d, _) in short_tasks(4) {
            for p in 0..t {
                let tasks = [first, (c, t, d, p)];
                let paired = request(&tasks, &[(0, 1)]);
                for allowance in [0, 2, 3, 1_000] {
                    made += compared(&request(&tasks, &[]), 0, allowance);
                    if first.1 == t {
                        made += compared(&paired, 0, allowance);
                        made += compared(&paired, 1, allowance);
                    }
                }
            }
        }
    }
    println!("{made} requests");
    assert!(made > 5_000, "{made}");
}

/// Every value of every byte of a request; its phases are counted for each task.
#[test]
fn every_value_of_every_byte() {
    let good = silent_request(&[(2, 9, 8, 3), (3, 9, 9, 0)], &[(0, 1)], 1);
    let mut made = 0;
    for place in 0..good.len() {
        for value in 0..=255 {
            let mut bytes = good.clone();
            bytes[place] = value;
            made += (0..3).map(|task| compared(&bytes, task, 5)).sum::<u64>();
        }
    }
    assert!(made > 100, "{made}");
}

/// A g of 0 in each way that it can be written, and one that is not 0: the request's own bytes are
/// planned, the third section among them.
#[test]
fn each_third_section() {
    let plain = request(&[(2, 12, 9, 4), (3, 6, 5, 1), (1, 6, 6, 0)], &[(1, 2)]);
    for section in [&[][..], &[0], &[1, 0], &[1, 1], &[1, 2], &[1, 15]] {
        let bytes = sheet::with_section(plain.clone(), section);
        for task in 0..3 {
            for allowance in [0, 4, 6, 8, 1_000] {
                assert_eq!(compared(&bytes, task, allowance), 1);
            }
        }
    }
}

/// 16 tasks of the longest period, each phase planned in 16 tries at most: the phases of a task are
/// counted in less than two seconds of processor time. With the short deadline some lead to 9.
#[cfg(feature = "linked")]
#[test]
fn ten_thousand_phases_in_two_seconds() {
    let mut longest = 0.0_f64;
    for (deadline, four) in [(10_000, [10_000, 0, 0, 0]), (60, [6_250, 3_750, 0, 0])] {
        let bytes = sheet::long_periods(deadline);
        for task in [0, 3, 15] {
            let begin = seconds_used();
            let actual = counted(subject(), &bytes, task, 16);
            let seconds = seconds_used() - begin;
            assert_eq!(actual, Ok(four), "task {task}");
            assert!(seconds < 2.0, "task {task}: {seconds} s");
            longest = longest.max(seconds);
        }
    }
    tell(format!("10,000 phases: {:.0} ms at most\n", 1e3 * longest));
}
