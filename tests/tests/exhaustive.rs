//! Small worlds tried whole: every request of one or two short tasks, and every value of every
//! byte of a request and of a table.

use crate::common::{subject, tell_cut};
use bus_tests::bus::{ENTRIES_LEN, STATE_LEN, TRIES_LEN};
use bus_tests::call::Call;
use bus_tests::compare::compare;
use bus_tests::comparison::MOST_TRIES;
use bus_tests::given_tries;
use bus_tests::reference::cycle::Cycle;
use bus_tests::reference::table::{encode, of_plan};
use bus_tests::reference::{planned, read_cycle, tries_within};
use bus_tests::sheet::{self, request, silent_request, Short};

fn same(call: &Call) -> i32 {
    match compare(subject(), call) {
        Ok(outcome) => outcome.answer,
        Err(fault) => panic!("{fault}"),
    }
}

/// Plans with so many tries allowed and this much room.
fn plans_within(request: &[u8], allowance: u64, room: usize) -> i32 {
    let (out, tries) = (vec![0x3C; room], [0x3C; TRIES_LEN]);
    same(&Call::plan(request, allowance, &out, &tries))
}

/// How many requests were planned, refused, and planned with fewer tries allowed than they need.
#[derive(Default)]
struct Counts {
    planned: u64,
    refused: u64,
    cut: u64,
}

impl Counts {
    /// Plans with room enough, and checks the table if there is one.
    fn plans_alike(&mut self, request: Vec<u8>) {
        if tries_within(&request, MOST_TRIES).is_none() {
            self.cut += 1;
            assert_eq!(plans_within(&request, MOST_TRIES, 80), -23);
            return;
        }
        let answer = plans_within(&request, u64::MAX, 80);
        if answer > 0 {
            self.planned += 1;
        } else {
            self.refused += 1;
        }
        if let Ok(table) = planned(&request) {
            let table = encode(&table);
            assert_eq!(same(&Call::check(&request, &table)), 0);
        }
    }

    /// Plans, and reports to a fresh state.
    fn read_alike(&mut self, request: Vec<u8>) {
        self.plans_alike(request.clone());
        same(&Call::report(&request, 0, 3, &fresh()));
    }

    fn tell(&self, what: &str) {
        let compared = self.planned + self.refused;
        tell_cut(what, compared, self.cut, MOST_TRIES);
    }
}

/// Every (C, T, D, P) with this T.
fn tasks_of_period(t: i64) -> Vec<Short> {
    let mut tasks = Vec::new();
    for d in 1..=t {
        for c in 1..=d {
            for p in 0..t {
                tasks.push((c, t, d, p));
            }
        }
    }
    tasks
}

#[test]
fn every_request_of_one_short_task() {
    let mut counts = Counts::default();
    for t in 1..=14 {
        for task in tasks_of_period(t) {
            for g in 0..=3 {
                counts.plans_alike(silent_request(&[task], &[], g));
            }
        }
    }
    counts.tell("every request of one short task");
    assert!(counts.planned > 1_000, "{}", counts.planned);
}

#[test]
fn every_request_of_two_short_tasks() {
    let tasks: Vec<Short> = [2, 3, 4, 6].into_iter().flat_map(tasks_of_period).collect();
    let mut counts = Counts::default();
    for first in &tasks {
        for second in &tasks {
            let two = [*first, *second];
            counts.plans_alike(request(&two, &[]));
            counts.plans_alike(silent_request(&two, &[], 1));
            if first.1 == second.1 {
                counts.plans_alike(request(&two, &[(0, 1)]));
                counts.plans_alike(silent_request(&two, &[(0, 1)], 1));
            }
        }
    }
    counts.tell("every request of two short tasks");
    assert!(counts.planned > 10_000, "{}", counts.planned);
}

/// Every allowance from none to two more than the full search needs, for requests that are refused
/// before the search, that have no plan, and whose plan comes at once or with the last try.
#[test]
fn every_allowance() {
    let requests = [
        sheet::p1(),
        sheet::p1_silent(),
        sheet::p2(),
        sheet::p3(),
        sheet::p5(),
        sheet::p6(),
        sheet::p11(),
        sheet::pigeons(6, 5, 0),
        given_tries::refused_after(700),
        given_tries::planned_after(700),
    ];
    for request in requests {
        let full = tries_within(&request, MOST_TRIES).expect("the search is short");
        for allowance in 0..=full + 2 {
            for room in [0, 300] {
                let answer = plans_within(&request, allowance, room);
                assert_eq!(answer == -23, allowance < full, "{allowance} of {full}");
            }
        }
    }
}

/// A table with frames of f ticks that puts each job into the first frame from its release on.
fn early_table(cycle: &Cycle, f: i64) -> Vec<u8> {
    let frames: Vec<i64> = cycle
        .jobs
        .iter()
        .map(|job| (job.release + f - 1) / f)
        .collect();
    let mut table = of_plan(cycle, f, &frames);
    for row in &mut table.rows {
        row.dedup_by_key(|entry| entry.task);
    }
    encode(&table)
}

/// Every deadline and phase of a short task, beside a second task that makes the cycle longer, with
/// every length that divides the cycle: 13 is given exactly where a window holds no frame.
#[test]
fn every_length_of_every_short_task() {
    let mut refused = 0;
    for t in 1..=9 {
        for (_, _, d, p) in tasks_of_period(t).into_iter().filter(|task| task.0 == 1) {
            for other in 1..=9 {
                let request = request(&[(1, t, d, p), (1, other, other, 0)], &[]);
                let cycle = read_cycle(&request).expect("within the limits");
                for f in (1..=cycle.h).filter(|f| cycle.h % f == 0) {
                    let call = Call::check(&request, &early_table(&cycle, f));
                    refused += i32::from(same(&call) == -13);
                }
            }
        }
    }
    assert!(refused > 1_000, "{refused}");
}

/// The bytes with every value at every place.
fn every_byte(bytes: &[u8]) -> impl Iterator<Item = Vec<u8>> + '_ {
    (0..bytes.len()).flat_map(move |place| {
        (0..=255).map(move |value| {
            let mut changed = bytes.to_vec();
            changed[place] = value;
            changed
        })
    })
}

#[test]
fn every_byte_of_a_request() {
    let mut counts = Counts::default();
    for bytes in [
        sheet::p3(),
        sheet::p6(),
        sheet::p7(),
        sheet::with_section(sheet::p7(), &[0]),
        sheet::with_section(sheet::p7(), &[1, 1]),
    ] {
        every_byte(&bytes).for_each(|changed| counts.read_alike(changed));
    }
    counts.tell("every byte of a request");
}

/// Every byte behind the pairs, alone and before every other byte, and both before a third.
#[test]
fn every_third_section() {
    let mut counts = Counts::default();
    for count in 0..=255 {
        counts.read_alike(sheet::with_section(sheet::p7(), &[count]));
        for g in 0..=255 {
            counts.read_alike(sheet::with_section(sheet::p7(), &[count, g]));
            counts.read_alike(sheet::with_section(sheet::p7(), &[count, g, 0]));
        }
    }
    counts.tell("every third section");
    // Frames of 5 hold 2 + 3 ticks and no more; `00` and a g of 0 to 3 are planned.
    assert_eq!(counts.planned, 5);
}

fn fresh() -> Vec<u8> {
    let mut state = vec![0; STATE_LEN];
    assert_eq!(subject().fresh(&mut state), 0);
    state
}

#[test]
fn every_byte_of_a_table() {
    let silent = sheet::with_section(sheet::p7(), &[1, 3]);
    for request in [sheet::p1(), sheet::p3(), sheet::p6(), sheet::p7(), silent] {
        let table = encode(&planned(&request).expect("it has a table"));
        for changed in every_byte(&table) {
            same(&Call::check(&request, &changed));
            same(&Call::rewrite(&request, &changed, &vec![0x3C; table.len()]));
            let mut state = fresh();
            state[0] = changed[1] % 4;
            same(&Call::next_frame(&changed, &state, &[0x3C; ENTRIES_LEN]));
        }
    }
}

#[test]
fn every_byte_of_a_state() {
    let table = encode(&planned(&sheet::p3()).expect("it has a table"));
    for state in every_byte(&fresh()) {
        same(&Call::next_frame(&table, &state, &[0x3C; ENTRIES_LEN]));
        same(&Call::report(&sheet::p3(), 1, 3, &state));
    }
}
