//! Which number is given when several would do, and what a refusal leaves unchanged.

use crate::common::{checks_as, plan, refused, subjects, table};
use bus_tests::bus::{count_bytes, counts, Bus, STATE_USED, TASKS};
use bus_tests::sheet::{self, request, silent_request, with_section};

/// Planner and check refuse the request with this number.
fn check_refuses_like_plan(bytes: &[u8], number: i32) {
    refused(bytes, number);
    checks_as(bytes, &[], -number);
    checks_as(bytes, &table(20, 40, "0.0 1.0 2.0 / 0.1 1.1"), -number);
}

/// The request bytes with the one at `at` replaced.
fn with_byte(mut bytes: Vec<u8>, at: usize, byte: u8) -> Vec<u8> {
    bytes[at] = byte;
    bytes
}

#[test]
fn requests_cut_anywhere_end_with_1() {
    let whole = sheet::p3();
    for length in 0..whole.len() {
        check_refuses_like_plan(&whole[..length], 1);
    }
    check_refuses_like_plan(&with_section(whole, &[1]), 1);
}

#[test]
fn counts_are_judged_at_once() {
    for n in [0, 17, 255] {
        check_refuses_like_plan(&[n], 2);
        check_refuses_like_plan(&with_byte(sheet::p1(), 0, n), 2);
    }
    check_refuses_like_plan(&with_byte(sheet::p1(), 25, 17), 4);
    check_refuses_like_plan(&with_byte(sheet::p1(), 25, 255), 4);
    // A count of 16 is good, so the bytes end too early.
    check_refuses_like_plan(&with_byte(sheet::p1(), 25, 16), 1);
}

#[test]
fn tasks_are_judged_one_by_one() {
    for bad in [
        (0, 20, 20, 0),
        (5, 20, 4, 0),
        (5, 20, 21, 0),
        (5, 20, 20, 20),
        (5, 0, 0, 0),
        (0, 0, 0, 0),
        (65_535, 65_535, 65_535, 65_535),
    ] {
        check_refuses_like_plan(&request(&[bad], &[]), 3);
        check_refuses_like_plan(&request(&[bad], &[])[..9], 3);
        check_refuses_like_plan(&request(&[bad], &[])[..8], 1);
        check_refuses_like_plan(&request(&[(1, 9, 9, 8), bad], &[(1, 1)]), 3);
    }
    // The first task is bad and the second is cut: 3, met first.
    check_refuses_like_plan(&request(&[(0, 1, 1, 0), (1, 1, 1, 0)], &[])[..12], 3);
    // The first is good and the second is cut, whatever its first fields say.
    check_refuses_like_plan(&request(&[(1, 1, 1, 0), (0, 0, 0, 0)], &[])[..16], 1);
}

#[test]
fn pairs_are_judged_one_by_one() {
    let tasks = [(1, 8, 8, 0), (1, 8, 8, 0), (1, 16, 16, 0)];
    for bad in [(0, 0), (1, 0), (0, 2), (0, 3), (1, 255), (2, 2)] {
        check_refuses_like_plan(&request(&tasks, &[bad]), 5);
        check_refuses_like_plan(&request(&tasks, &[(0, 1), bad]), 5);
        let mut cut = request(&tasks, &[bad, (0, 1)]);
        cut.pop();
        check_refuses_like_plan(&cut, 5);
        let mut half = request(&tasks, &[bad]);
        half.pop();
        check_refuses_like_plan(&half, 1);
    }
    let mut twice = request(&tasks, &[(0, 1); 16]);
    for (name, bus) in subjects() {
        assert!(plan(bus, &twice).is_ok(), "{name}");
    }
    twice.extend([0, 0]);
    check_refuses_like_plan(&twice, 6);
}

/// Every call that reads a request refuses it with this number.
fn all_refuse(bytes: &[u8], number: i32) {
    check_refuses_like_plan(bytes, number);
    let good = table(20, 40, "0.0 1.0 2.0 / 0.1 1.1");
    for (name, bus) in subjects() {
        let mut out = [0x5A; 40];
        assert_eq!(bus.rewrite(bytes, &good, &mut out), -number, "{name}");
        assert_eq!(out, [0x5A; 40], "{name}");
        let mut state = fresh(bus);
        for task in [0, 255] {
            assert_eq!(bus.report(bytes, task, 99, &mut state), -number, "{name}");
        }
        assert_eq!(state, fresh(bus), "{name}");
        assert_eq!(bus.report(bytes, 0, 99, &mut state[..63]), -99, "{name}");
    }
}

/// A request that is planned, one with too many jobs, and one with too long a cycle.
fn inside_and_beyond_the_limits() -> [Vec<u8>; 3] {
    let long = request(&[(1, 10_001, 1, 0)], &[]);
    [sheet::p1(), sheet::p11(), long]
}

#[test]
fn bytes_behind_the_third_section_give_6_before_7_and_8() {
    for bytes in inside_and_beyond_the_limits() {
        for section in [&[0][..], &[1, 0], &[1, 1], &[1, 15]] {
            let mut longer = with_section(bytes.clone(), section);
            longer.push(0);
            all_refuse(&longer, 6);
            longer.resize(5_000, 0);
            all_refuse(&longer, 6);
        }
    }
}

#[test]
fn a_bad_third_section_gives_17_before_6_7_and_8() {
    for bytes in inside_and_beyond_the_limits() {
        for section in [
            &[2][..],
            &[3],
            &[255],
            &[2, 0],
            &[2, 0, 0],
            &[2, 1, 16, 9],
            &[1, 16],
            &[1, 255],
            &[1, 16, 0],
        ] {
            let mut longer = with_section(bytes.clone(), section);
            all_refuse(&longer, 17);
            longer.resize(5_000, 0);
            all_refuse(&longer, 17);
        }
        all_refuse(&with_section(bytes, &[1]), 1);
    }
}

#[test]
fn a_bad_pair_gives_5_before_17() {
    let tasks = [(1, 8, 8, 0), (1, 8, 8, 0)];
    for section in [&[][..], &[0], &[1], &[1, 16], &[2], &[2, 0]] {
        all_refuse(&with_section(request(&tasks, &[(1, 0)]), section), 5);
        let second_is_bad = request(&tasks, &[(0, 1), (1, 1)]);
        all_refuse(&with_section(second_is_bad, section), 5);
    }
    let mut seventeen = request(&tasks, &[]);
    seventeen[17] = 17;
    all_refuse(&with_section(seventeen, &[2]), 4);
}

/// No third section, `00` and `01 00` say the same.
#[test]
fn three_ways_to_write_no_silent_ticks() {
    let good = table(20, 40, "0.0 1.0 2.0 / 0.1 1.1");
    for section in [&[][..], &[0], &[1, 0]] {
        let bytes = with_section(sheet::p1(), section);
        crate::common::plans_as(&bytes, 20, 40, "0.0 1.0 2.0 / 0.1 1.1");
        checks_as(&bytes, &good, 0);
        check_refuses_like_plan(&with_section(sheet::p11(), section), 8);
        for (name, bus) in subjects() {
            let mut state = fresh(bus);
            assert_eq!(bus.report(&bytes, 0, 6, &mut state), 0, "{name}");
            assert_eq!(counts(&state)[0], 1, "{name}");
        }
    }
}

#[test]
fn the_longest_request_has_164_bytes() {
    let mut bytes = silent_request(&[(1, 160, 160, 0); 16], &[(0, 1); 16], 9);
    assert_eq!(bytes.len(), 164);
    let row: Vec<String> = (0..16).map(|task| format!("{task}.0")).collect();
    crate::common::plans_as(&bytes, 160, 160, &row.join(" "));
    bytes.push(0);
    all_refuse(&bytes, 6);
}

/// Two transfers of 5 ticks in a frame of 10 + 2g: the silent ticks of the last one count too.
#[test]
fn silent_ticks_count_for_every_transfer_of_a_row() {
    for g in 0..=15 {
        let f = 10 + 2 * g;
        let tasks = [(5, f, f, 0), (5, f, f, 0)];
        crate::common::plans_as(&silent_request(&tasks, &[], g), f, f, "0.0 1.0");
        let shorter = [(5, f - 1, f - 1, 0), (5, f - 1, f - 1, 0)];
        let bytes = silent_request(&shorter, &[], g);
        refused(&bytes, 10);
        checks_as(&bytes, &table(f - 1, f - 1, "0.0 1.0"), -14);
    }
}

/// A frame holds a transfer of 5 ticks from 5 + g ticks on; no shorter one is plausible.
#[test]
fn silent_ticks_count_in_the_frame_length() {
    for g in 0..=15 {
        let t = 5 + g;
        crate::common::plans_as(&silent_request(&[(5, t, t, 0)], &[], g), t, t, "0.0");
        let short = silent_request(&[(5, t - 1, t - 1, 0)], &[], g);
        if g == 0 {
            check_refuses_like_plan(&short, 3);
        } else {
            refused(&short, 9);
            checks_as(&short, &table(t - 1, t - 1, "0.0"), -13);
        }
    }
}

/// C ≤ D is judged without the silent ticks, and so is a report.
#[test]
fn silent_ticks_count_nowhere_else() {
    let tight = silent_request(&[(5, 20, 5, 0)], &[], 15);
    refused(&tight, 9);
    for (name, bus) in subjects() {
        let mut state = fresh(bus);
        for (ticks, overruns) in [(5, 0), (6, 1), (20, 2), (21, 3)] {
            assert_eq!(bus.report(&tight, 0, ticks, &mut state), 0, "{name}");
            assert_eq!(counts(&state)[0], overruns, "{name}");
        }
    }
    // 2f - gcd(f, T) is 4 for f 4 and T 8: the deadline needs no tick more for g.
    let exact = silent_request(&[(1, 8, 4, 0)], &[], 3);
    crate::common::plans_as(&exact, 4, 8, "0.0 / ");
}

#[test]
fn the_cycle_is_judged_before_the_jobs() {
    let long_and_many = request(&[(1, 1, 1, 0), (1, 9_999, 1, 0), (1, 10_000, 1, 0)], &[]);
    check_refuses_like_plan(&long_and_many, 7);
    let primes: Vec<_> = [
        65_521, 65_519, 65_497, 65_479, 65_449, 65_447, 65_437, 65_423,
    ]
    .iter()
    .map(|t| (1, *t, *t, 0))
    .collect();
    check_refuses_like_plan(&request(&primes, &[]), 7);
    check_refuses_like_plan(&sheet::p11(), 8);
    check_refuses_like_plan(&request(&[(1, 1, 1, 0), (1, 10_000, 1, 0)], &[]), 8);
}

/// The largest job number within the limits is 126: a task with 128 jobs would be alone in its
/// cycle, and then it has one job.
#[test]
fn exactly_128_jobs_are_planned() {
    let rows: Vec<String> = (1..127).map(|j| format!("0.{j}")).collect();
    let rows = format!("0.0 1.0 / {}", rows.join(" / "));
    let bytes = request(&[(1, 64, 64, 0), (40, 8_128, 8_128, 0)], &[]);
    crate::common::plans_as(&bytes, 64, 8_128, &rows);
    let more = request(
        &[(1, 64, 64, 0), (1, 8_128, 8_128, 0), (1, 8_128, 8_128, 0)],
        &[],
    );
    check_refuses_like_plan(&more, 8);
    let halving: Vec<_> = [10, 20, 40, 80, 160, 320, 640, 640]
        .iter()
        .map(|t| (2, *t, *t, *t / 20 * 10))
        .collect();
    for (name, bus) in subjects() {
        let table = plan(bus, &request(&halving, &[])).expect(name);
        assert_eq!(table.len(), 7 + 64 + 2 * 128);
    }
}

#[test]
fn short_buffers_give_11_last_and_stay_untouched() {
    for (name, bus) in subjects() {
        let length = plan(bus, &sheet::p3()).unwrap().len();
        assert_eq!(length, 7 + 6 + 2 * 9);
        for room in 0..length {
            let mut out = vec![0x5A; room];
            assert_eq!(
                bus.plan_freely(&sheet::p3(), &mut out),
                -11,
                "{name} {room}"
            );
            assert!(out.iter().all(|byte| *byte == 0x5A), "{name} {room}");
        }
        let good = plan(bus, &sheet::p3()).unwrap();
        assert_eq!(bus.rewrite(&sheet::p3(), &good, &mut []), -11, "{name}");
        assert_eq!(bus.rewrite(&sheet::p3(), &[], &mut []), -12, "{name}");
        assert_eq!(bus.rewrite(&sheet::p1(), &good, &mut []), -13, "{name}");
    }
}

#[test]
fn tables_without_the_form_give_12() {
    let good = table(20, 40, "0.0 1.0 2.0 / 0.1 1.1");
    checks_as(&sheet::p1(), &good, 0);
    for length in 0..good.len() {
        checks_as(&sheet::p1(), &good[..length], -12);
    }
    let mut longer = good.clone();
    longer.push(0);
    checks_as(&sheet::p1(), &longer, -12);
    for (at, byte) in [
        (0, 1),
        (0, 3),
        (1, 0),
        (1, 19),
        (2, 1),
        (3, 41),
        (5, 1),
        (5, 3),
        (6, 1),
        (7, 17),
        (7, 4),
        (8, 1),
        (12, 16),
        (12, 1),
    ] {
        checks_as(&sheet::p1(), &with_byte(good.clone(), at, byte), -12);
    }
    checks_as(&sheet::p1(), &table(20, 40, "0.0 1.0 2.0 / 0.1 0.1"), -12);
    checks_as(&sheet::p1(), &table(0, 40, "0.0 / 0.1"), -12);
    checks_as(&sheet::p1(), &table(0, 0, "0.0"), -12);
    checks_as(&sheet::p1(), &table(10_001, 10_001, "0.0"), -12);
    // 257 rows, and a product that is only right in 16 bits.
    checks_as(&sheet::p1(), &table(1, 257, &" / ".repeat(256)), -12);
    checks_as(&sheet::p1(), &table(32_778, 20, " / "), -12);
}

#[test]
fn another_cycle_or_length_gives_13_before_14() {
    checks_as(&sheet::p1(), &table(20, 20, "0.0 1.0"), -13);
    checks_as(&sheet::p1(), &table(40, 40, "0.0 1.0 2.0"), -13);
    checks_as(&sheet::p1(), &table(5, 40, &" / ".repeat(7)), -13);
    let twice = "0.0 1.0 2.0 / 0.1 1.1 / 0.0 1.0 2.0 / 0.1 1.1";
    checks_as(&sheet::p1(), &table(20, 80, twice), -13);
}

#[test]
fn tables_that_are_no_plan_give_14() {
    for rows in [
        " / ",
        "0.0 1.0 2.0 / 0.1",
        "0.0 1.0 2.0 / 0.1 1.1 2.0",
        "0.0 1.0 2.0 / 0.1 1.1 3.0",
        "0.0 1.0 2.0 / 0.1 1.1 15.0",
        "0.0 1.0 2.0 / 0.1 1.2",
        "0.0 1.0 2.0 / 0.1 1.127",
        "0.0 1.0 2.1 / 0.1 1.1",
        "0.1 1.0 2.0 / 0.0 1.1",
        "0.0+ 1.0 2.0 / 0.1 1.1",
        "0.0 1.0 2.0 / 0.1 1.1+",
        "0.0 1.0 2.0 / 0.0 1.1",
    ] {
        checks_as(&sheet::p1(), &table(20, 40, rows), -14);
    }
    // Too much in a row; task 2 may stand in either.
    checks_as(&sheet::p1(), &table(20, 40, "0.0 1.0 / 0.1 1.1 2.0"), 0);
    checks_as(
        &sheet::p1(),
        &table(10, 40, "0.0 1.0 / 2.0 / 0.1 1.1 / "),
        0,
    );
    checks_as(
        &sheet::p1(),
        &table(10, 40, "0.0 1.0 2.0 / / 0.1 1.1 / "),
        -14,
    );
    // The pair 2, 3 the wrong way round.
    let wrong = "0.0 1.0 / 3.0 / 0.1 1.1 / 0.2 / 2.0 / 0.3 1.2";
    checks_as(&sheet::p3(), &table(4, 24, wrong), -14);
}

/// A pair whose second task is released first: the planner must look both ways.
#[test]
fn a_pair_may_be_placed_second_task_first() {
    let bytes = request(&[(2, 12, 6, 6), (2, 12, 12, 0)], &[(0, 1)]);
    crate::common::plans_as(&bytes, 6, 12, " / 0.0 1.0");
    let bytes = request(&[(4, 12, 6, 6), (4, 12, 12, 0)], &[(0, 1)]);
    // In frames of 4 the first job of task 0 needs frame 2, so task 1 cannot come by frame 2.
    refused(&bytes, 10);
    let free = request(&[(4, 12, 6, 6), (4, 12, 12, 0)], &[]);
    for (name, bus) in subjects() {
        assert!(plan(bus, &free).is_ok(), "{name}");
    }
}

fn fresh(bus: &dyn Bus) -> Vec<u8> {
    let mut state = vec![0xFF; 64];
    assert_eq!(bus.fresh(&mut state), 0);
    state
}

#[test]
fn fresh_sets_64_bytes() {
    for (name, bus) in subjects() {
        let mut expected = [0; 64];
        expected[2] = 1;
        assert_eq!(fresh(bus), expected, "{name}");
        let mut longer = [0xFF; 70];
        assert_eq!(bus.fresh(&mut longer), 0, "{name}");
        assert_eq!(longer[..64], expected, "{name}");
        assert_eq!(longer[64..], [0xFF; 6], "{name}");
        let mut shorter = [0xFF; 63];
        assert_eq!(bus.fresh(&mut shorter), -99, "{name}");
        assert_eq!(shorter, [0xFF; 63], "{name}");
        assert_eq!(bus.fresh(&mut []), -99, "{name}");
    }
}

#[test]
fn next_frame_judges_form_then_row() {
    let good = table(20, 40, "0.0 1.0 2.0 / 0.1 1.1");
    for (name, bus) in subjects() {
        let mut state = fresh(bus);
        state[0] = 2;
        let before = state.clone();
        let mut entries = [9; 32];
        assert_eq!(bus.next_frame(&good[1..], &mut state, &mut entries), -12);
        assert_eq!(bus.next_frame(&good, &mut state, &mut entries), -15);
        state[1] = 255;
        assert_eq!(bus.next_frame(&good, &mut state, &mut entries), -15);
        state[1] = 0;
        assert_eq!(state, before, "{name}");
        assert_eq!(entries, [9; 32], "{name}");
        state[0] = 1;
        assert_eq!(bus.next_frame(&good, &mut state, &mut entries), 2);
        let mut after = [0; 64];
        after[2] = 0;
        assert_eq!(state, after, "{name}");
        assert_eq!(entries[..6], [0, 1, 1, 1, 0, 0], "{name}");
    }
}

#[test]
fn next_frame_refuses_what_is_no_state() {
    let good = table(20, 40, "0.0 1.0 2.0 / 0.1 1.1");
    for (name, bus) in subjects() {
        for mark in [2, 128, 255] {
            let mut state = fresh(bus);
            state[2] = mark;
            let before = state.clone();
            let mut entries = [9; 32];
            assert_eq!(bus.next_frame(&good, &mut state, &mut entries), -99);
            assert_eq!(bus.report(&sheet::p1(), 0, 9, &mut state), -99);
            assert_eq!((state, entries), (before, [9; 32]), "{name}");
        }
        let mut state = fresh(bus);
        let before = state.clone();
        assert_eq!(bus.next_frame(&good, &mut state, &mut [9; 31]), -99);
        assert_eq!(bus.next_frame(&good, &mut state[..63], &mut [9; 32]), -99);
        assert_eq!(bus.report(&sheet::p1(), 0, 9, &mut state[..63]), -99);
        assert_eq!(bus.report(&sheet::p1(), 0, 9, &mut []), -99);
        assert_eq!(state, before, "{name}");
    }
}

#[test]
fn reports_count_only_what_exceeds_c() {
    let bytes = sheet::p1();
    for (name, bus) in subjects() {
        let mut state = fresh(bus);
        let mut expected = [0; TASKS];
        for (task, ticks, answer) in [
            (0, 5, 0),
            (0, 6, 0),
            (2, 10, 0),
            (2, 11, 0),
            (1, 65_536 + 5, 0),
            (1, u32::MAX, 0),
            (3, 99, -16),
            (255, 99, -16),
        ] {
            assert_eq!(bus.report(&bytes, task, ticks, &mut state), answer);
            if answer == 0 {
                let task = usize::from(task);
                expected[task] += u16::from(ticks > [5, 5, 10][task]);
            }
            assert_eq!(counts(&state), expected, "{name} {task} {ticks}");
        }
        assert_eq!(expected[..4], [1, 2, 1, 0]);
        assert_eq!(bus.report(&bytes[..9], 9, 99, &mut state), -1);
        assert_eq!(bus.report(&[0], 9, 99, &mut state), -2);
        assert_eq!(counts(&state), expected, "{name}");
        assert_eq!(state[..3], [0, 0, 1], "{name}");
    }
}

#[test]
fn each_count_stops_at_65535() {
    let sixteen = request(&[(1, 10, 10, 0); TASKS], &[]);
    for (name, bus) in subjects() {
        for task in 0..TASKS {
            let mut state = fresh(bus);
            state[STATE_USED..].fill(0x99);
            state[count_bytes(task)].copy_from_slice(&65_533_u16.to_le_bytes());
            for count in [65_534, 65_535, 65_535, 65_535] {
                assert_eq!(bus.report(&sixteen, task as u8, 2, &mut state), 0);
                let mut expected = [0; TASKS];
                expected[task] = count;
                assert_eq!(counts(&state), expected, "{name}");
            }
            assert_eq!(state[..3], [0, 0, 1], "{name}");
            assert!(
                state[STATE_USED..].iter().all(|byte| *byte == 0x99),
                "{name}"
            );
        }
    }
}

/// A report does not ask for the cycle or the number of jobs.
#[test]
fn reports_take_requests_beyond_the_limits() {
    for (name, bus) in subjects() {
        let mut state = fresh(bus);
        let long = request(&[(1, 10_001, 1, 0)], &[]);
        assert_eq!(bus.report(&long, 0, 2, &mut state), 0, "{name}");
        assert_eq!(bus.report(&sheet::p11(), 1, 2, &mut state), 0, "{name}");
        assert_eq!(counts(&state)[..3], [1, 1, 0], "{name}");
    }
}

/// With one row the mark is cleared by the first call.
#[test]
fn one_row_clears_the_mark_at_once() {
    let carried = table(10, 10, "0.0+");
    for (name, bus) in subjects() {
        let mut state = fresh(bus);
        let mut entries = [0; 32];
        assert_eq!(bus.next_frame(&carried, &mut state, &mut entries), 0);
        assert_eq!(state[..3], [0, 0, 0], "{name}");
        assert_eq!(bus.next_frame(&carried, &mut state, &mut entries), 1);
        assert_eq!(entries[..2], [0, 0x80], "{name}");
    }
}

/// Carried entries that are left out leave no hole, and bytes 3 to 63 stay.
#[test]
fn served_entries_move_up() {
    let mixed = table(10, 20, "0.0+ 1.0 2.0+ 3.1 / 0.1");
    for (name, bus) in subjects() {
        let mut state = fresh(bus);
        state[3..].fill(0x99);
        let mut entries = [7; 32];
        assert_eq!(bus.next_frame(&mixed, &mut state, &mut entries), 2);
        assert_eq!(entries[..6], [1, 0, 3, 1, 0, 0], "{name}");
        assert_eq!(bus.next_frame(&mixed, &mut state, &mut entries), 1);
        assert_eq!(bus.next_frame(&mixed, &mut state, &mut entries), 4);
        assert_eq!(entries[..8], [0, 0x80, 1, 0, 2, 0x80, 3, 1], "{name}");
        assert!(state[3..].iter().all(|byte| *byte == 0x99), "{name}");
    }
}

/// Lengths that would wrap in 16 bits.
#[test]
fn lengths_above_65535() {
    let request = sheet::p3();
    let table = table(4, 24, "0.0 1.0 / 2.0 / 0.1 1.1 / 0.2 / 3.0 / 0.3 1.2");
    let mut long_request = request.clone();
    long_request.resize(request.len() + 65_536, 0);
    check_refuses_like_plan(&long_request, 6);
    let mut long_table = table.clone();
    long_table.resize(table.len() + 65_536, 0);
    checks_as(&request, &long_table, -12);
    for (name, bus) in subjects() {
        let mut out = vec![0x11; 65_536];
        let length = bus.plan_freely(&request, &mut out) as usize;
        assert_eq!(out[..length], table, "{name}");
        assert!(out[length..].iter().all(|byte| *byte == 0x11), "{name}");
        assert_eq!(bus.rewrite(&request, &table, &mut out), length as i32);
        let mut state = vec![0x11; 65_536];
        let mut entries = vec![0x11; 65_536];
        assert_eq!(bus.fresh(&mut state), 0, "{name}");
        assert_eq!(bus.next_frame(&table, &mut state, &mut entries), 2);
        assert_eq!(bus.report(&request, 0, 3, &mut state), 0, "{name}");
        assert_eq!(bus.report(&long_request, 0, 3, &mut state), -6, "{name}");
        assert_eq!(state[..3], [1, 0, 1], "{name}");
        assert_eq!(counts(&state)[..2], [1, 0], "{name}");
        assert!(entries[32..].iter().all(|byte| *byte == 0x11), "{name}");
        assert!(state[64..].iter().all(|byte| *byte == 0x11), "{name}");
    }
}

/// One task from fresh until its count stops, with frames and a few reports of the others between.
#[test]
fn reports_from_fresh_until_one_count_stops() {
    let request = sheet::p1();
    let table = table(20, 40, "0.0 1.0 2.0 / 0.1 1.1");
    for (name, bus) in subjects() {
        let mut state = fresh(bus);
        let mut expected = [0; TASKS];
        for reports in 1..=65_540_u32 {
            assert_eq!(bus.report(&request, 1, 6, &mut state), 0);
            expected[1] = reports.min(65_535) as u16;
            if reports % 20_000 == 0 {
                assert_eq!(bus.report(&request, 2, 11, &mut state), 0);
                expected[2] += 1;
            }
            if reports % 1_000 == 0 {
                assert!(bus.next_frame(&table, &mut state, &mut [0; 32]) > 0);
            }
            assert_eq!(counts(&state), expected, "{name}");
        }
        assert_eq!(expected[..4], [0, 65_535, 3, 0]);
    }
}
