//! Every call in a thread with a stack of 256 KiB, a decision in one of 512 KiB; an overflow ends the
//! whole run.
#![cfg(feature = "linked")]

use bus_tests::bus::{
    COUNTS_LEN, DRAFT_LEN, ENTRIES_LEN, HEATER_LEN, RECORD_LEN, STATE_LEN, TIMER_LEN, TRIES_LEN,
};
use bus_tests::call::{Call, Outcome};
use bus_tests::compare::expected;
use bus_tests::comparison::Comparison;
use bus_tests::fuzzer::Fuzzer;
use bus_tests::left_open::{stored, Stored};
use bus_tests::lending::run;
use bus_tests::library::Library;
use bus_tests::reference::planned_within;
use bus_tests::reference::request::read;
use bus_tests::reference::table::encode;
use bus_tests::rounds;
use bus_tests::sheet::{self, request, silent_request};

const STACK: usize = 256 * 1024;
const STACK_OF_DECISIONS: usize = 512 * 1024;

fn deep_requests() -> Vec<Vec<u8>> {
    let chain: Vec<(usize, usize)> = (0..14).map(|a| (a, a + 1)).collect();
    let mut tasks = vec![(1, 16, 16, 0); 15];
    tasks.push((1, 128, 128, 0));
    let halving: Vec<_> = [10, 20, 40, 80, 160, 320, 640, 640]
        .iter()
        .map(|t| (2, *t, *t, *t / 20 * 10))
        .collect();
    vec![
        request(&tasks, &chain),
        request(&tasks, &[]),
        request(&halving, &[(6, 7); 16]),
        silent_request(&halving, &[(6, 7); 16], 2),
        request(&[(1, 64, 64, 0), (40, 8_128, 8_128, 0)], &[]),
        request(&[(1, 10_000, 10_000, 9_999)], &[]),
        sheet::p9(),
        sheet::p3(),
    ]
}

/// The last pair of the request, or two tasks that are none.
fn some_pair(request: &[u8]) -> (u8, u8) {
    let pairs = read(request).expect("it has a table").pairs;
    let (a, b) = pairs.last().copied().unwrap_or((0, 0));
    (a as u8, b as u8)
}

/// Calls with the outcomes of the reference, which needs a longer stack.
#[derive(Default)]
struct Calls(Vec<(Call, Outcome)>);

impl Calls {
    fn add(&mut self, call: &Call) -> Result<Outcome, String> {
        let outcome = expected(call)?;
        self.0.push((call.clone(), outcome.clone()));
        Ok(outcome)
    }

    /// Planning to the end and to the last try but one, and what can be done with the table.
    fn add_deep(&mut self, request: &[u8]) -> Result<(), String> {
        let (table, full) = planned_within(request, u64::MAX);
        let table = encode(&table.expect("it has a table"));
        let room = vec![0; table.len()];
        self.add(&Call::plan(request, u64::MAX, &room, &[0; TRIES_LEN]))?;
        self.add(&Call::plan(request, full - 1, &room, &[0; TRIES_LEN]))?;
        self.add(&Call::decide(request, &room))?;
        self.add(&Call::phases(request, 0, full, &[0; COUNTS_LEN]))?;
        self.add(&Call::check(request, &table))?;
        self.add(&Call::rewrite(request, &table, &room))?;
        self.add(&Call::join(request, &sheet::p1(), &[0; 164]))?;
        self.add(&Call::cut(request, 1, 1, &[0; 164]))?;
        for (length, from, until) in [(1, 0, 16), (1, 17, 80), (u32::MAX, 0, 32), (0, 0, 0)] {
            self.add(&Call::one_off(request, &table, length, from, until))?;
        }
        for places in [128, 1] {
            let records = vec![0; places * RECORD_LEN];
            self.add(&Call::timeline(request, &table, &records))?;
        }
        let call = Call::draft_start(request, &table, &[0; DRAFT_LEN]);
        let draft = self.add(&call)?.buffers.remove(0);
        self.add(&Call::draft_write(request, &draft, &room))?;
        let up = self.add(&Call::draft_lift(request, 0, &draft))?.buffers;
        let frame = u16::from_le_bytes([draft[2], draft[3]]);
        for k in [0, 1, 65_535, frame] {
            self.add(&Call::draft_put(request, 0, k, &up[0]))?;
        }
        let mut heater = self.add(&Call::heater_fresh(&[0; HEATER_LEN]))?.buffers;
        let (a, b) = some_pair(request);
        for lost in 0..40 {
            let entries = [0; ENTRIES_LEN];
            let call = Call::heater_serve(request, &table, a, b, lost, &heater[0], &entries);
            heater = self.add(&call)?.buffers;
        }
        let mut state = self.add(&Call::fresh(&[0; STATE_LEN]))?.buffers.remove(0);
        for _ in 0..300 {
            let served = self.add(&Call::next_frame(&table, &state, &[0; ENTRIES_LEN]))?;
            let reported = self.add(&Call::report(request, 0, 1_000, &served.buffers[0]))?;
            state = reported.buffers[0].clone();
        }
        self.add_timer(request, &table)
    }

    /// Frames by the timer's registers.
    fn add_timer(&mut self, request: &[u8], table: &[u8]) -> Result<(), String> {
        let fresh = self.add(&Call::timer_fresh(&[0; TIMER_LEN]))?;
        let set = self.add(&Call::timer_write(0, 3, &fresh.buffers[0]))?;
        let mut timer = set.buffers[0].clone();
        for _ in 0..100 {
            let due = self.add(&Call::timer_event(&timer))?.buffers.remove(0);
            let served = self.add(&Call::timer_serve(table, &due, &[0; ENTRIES_LEN]))?;
            let call = Call::timer_report(request, 0, 1_000, &served.buffers[0]);
            timer = self.add(&call)?.buffers.remove(0);
            self.add(&Call::timer_read(4, &timer))?;
            self.add(&Call::timer_line(&timer))?;
        }
        Ok(())
    }

    /// Decisions that take long.
    fn add_open(&mut self) {
        for open in stored() {
            let Stored {
                request,
                answer,
                table,
            } = open;
            let outcome = Outcome {
                answer,
                buffers: vec![table.clone()],
            };
            let call = Call::decide(&request, &vec![0; table.len()]);
            self.0.push((call, outcome));
        }
    }

    /// The calls of some rounds of each kind, and some that the fuzzer draws.
    fn add_any(&mut self) -> Result<(), String> {
        for round in rounds::ALL {
            let judge = Box::new(|call: &Call| self.add(call));
            Comparison::judged_by(judge, 51).rounds(round, 40)?;
        }
        let mut fuzzer = Fuzzer::new(51);
        (0..2_000).try_for_each(|_| self.add(&fuzzer.call()).map(|_| ()))
    }
}

/// Makes the calls in a thread with so many bytes of stack.
fn run_all(calls: Vec<(Call, Outcome)>, stack: usize) {
    let work = move || {
        for (call, outcome) in calls {
            let actual = run(&Library, &call);
            assert_eq!(actual, Ok(outcome), "{}", call.describe());
        }
    };
    let thread = std::thread::Builder::new().stack_size(stack);
    thread.spawn(work).unwrap().join().unwrap();
}

#[test]
fn a_small_stack_is_enough() -> Result<(), String> {
    let mut calls = Calls::default();
    for request in deep_requests() {
        calls.add_deep(&request)?;
    }
    calls.add_open();
    calls.add_any()?;
    let is_decision = |(call, _): &(Call, Outcome)| call.row.name == "decide";
    let (decisions, others) = calls.0.into_iter().partition(is_decision);
    run_all(others, STACK);
    run_all(decisions, STACK_OF_DECISIONS);
    Ok(())
}
