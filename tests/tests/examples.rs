//! Worked examples of source documents 000 to 004 whose answers are known, and the files of the
//! folder `examples`.

use crate::common::{checks_as, example, examples, plans_as, refused, table};
use bus_tests::given_tries;
use bus_tests::reference::model::plausible_lengths;
use bus_tests::reference::{listing, planned, read_cycle, PROGRAM_TRIES};
use bus_tests::sheet::{self, request, silent_request, with_section, Short};

fn lengths(request: &[u8]) -> Vec<i64> {
    plausible_lengths(&read_cycle(request).expect("within the limits"))
}

/// Every request of the folder has the listing that stands beside it.
#[test]
fn files_of_the_folder() {
    let requests: Vec<String> = examples()
        .into_iter()
        .filter(|name| name.ends_with(".req"))
        .collect();
    assert!(requests.len() >= 20, "{requests:?}");
    for name in requests {
        let printed = String::from_utf8(example(&name.replace(".req", ".txt"))).expect("text");
        assert_eq!(listing(&example(&name)), printed, "{name}");
    }
}

/// A request whose plan is found with the last try that the programs allow, and one that needs ten
/// times as many: 11 jobs that fill a frame each, for 10 frames. The test above has their listings.
#[test]
fn at_and_beyond_the_last_try() {
    assert_eq!(
        example("last-try.req"),
        given_tries::planned_after(PROGRAM_TRIES)
    );
    assert_eq!(example("long-search.req"), sheet::pigeons(11, 10, 0));
    assert_eq!(example("long-search.txt"), b"refused 23\n");
}

/// With a silent tick after each transfer P1's row of 20 ticks no longer fits into its frame, and a
/// transfer of 4 not into P3's frames of 4.
#[test]
fn sheet_with_silent_ticks() {
    assert_eq!(example("p1-g1.req"), sheet::p1_silent());
    refused(&sheet::p1_silent(), 10);
    let old = table(20, 40, "0.0 1.0 2.0 / 0.1 1.1");
    checks_as(&sheet::p1_silent(), &old, -14);
    assert_eq!(example("p1-g16.req"), with_section(sheet::p1(), &[1, 16]));
    let no_silence = with_section(sheet::p3(), &[1, 0]);
    assert_eq!(example("p3-g0.req"), no_silence);
    assert_eq!(listing(&no_silence), listing(&sheet::p3()));
    let one_tick = with_section(sheet::p3(), &[1, 1]);
    assert_eq!(example("p3-g1.req"), one_tick);
    refused(&one_tick, 9);
}

/// One list with and without silent ticks: they move a job to another row, and the busy ticks of
/// the listing are those of the transfers alone.
#[test]
fn a_list_that_settles() {
    let tasks = [(8, 40, 40, 0), (8, 40, 40, 0), (4, 20, 20, 0)];
    let (quick, slow) = (request(&tasks, &[]), silent_request(&tasks, &[], 1));
    assert_eq!(example("settle-g0.req"), quick);
    assert_eq!(example("settle-g1.req"), slow);
    plans_as(&quick, 20, 40, "0.0 1.0 2.0 / 2.1");
    plans_as(&slow, 20, 40, "0.0 2.0 / 1.0 2.1");
    let text = "frame 20 cycle 40 rows 2\n0 12 0.0 2.0\n1 12 1.0 2.1\n";
    assert_eq!(listing(&slow), text);
}

/// 000, example 1: secondary periods 10 and 20; the document goes on with 20.
#[test]
fn document_000_example_1() {
    assert_eq!(lengths(&sheet::p1()), [20, 10]);
    assert_eq!(planned(&sheet::p1()).unwrap().f, 20);
}

/// 000, example 2: no length before the cut; of 4 and 6 only 4 keeps rule 5 after it.
#[test]
fn document_000_example_2() {
    assert!(lengths(&sheet::p2()).is_empty());
    assert_eq!(lengths(&sheet::p3()), [4]);
}

/// 000, example 3: both lengths keep the rules, and only segmentation of task 3 helps:
/// cut into two pieces of 5, with the pieces in order, it has a table.
#[test]
fn document_000_example_3() {
    refused(&sheet::p5(), 10);
    let cut = request(
        &[
            (5, 20, 20, 0),
            (10, 20, 20, 0),
            (5, 40, 40, 0),
            (5, 40, 40, 0),
        ],
        &[(2, 3)],
    );
    plans_as(&cut, 20, 40, "0.0 1.0 2.0 / 0.1 1.1 3.0");
}

/// 001, example, times 5: frames 2, 3 and 1, 2, 3, which the document counts from 1.
#[test]
fn document_001_example() {
    plans_as(&sheet::p6(), 20, 60, "2.0 / 0.0 2.1 / 1.0 2.2");
    assert!(lengths(&sheet::p6()).contains(&20));
}

/// 001, task 1: the first task of the checked schedule (T 15, D 9, frames 2, 5, 9, 12 of 4
/// ticks in a cycle of 60) needs the phase −1. Negative phases are outside our model; one
/// period later the same releases have phase 14, the document's first job comes last and is
/// carried into the next cycle. C is not given in the text; 1 is taken, and a second task
/// makes the cycle 60.
#[test]
fn document_001_task_1() {
    let shifted = request(&[(1, 15, 9, 14), (1, 60, 60, 0)], &[]);
    let rows = "1.0 / 0.3+ / / / 0.0 / / / / 0.1 / / / 0.2 / / / ";
    checks_as(&shifted, &table(4, 60, rows), 0);
    // The document's −1 is the largest such phase: with 0 (here 15, so 0) frame 12 is early.
    let later = request(&[(1, 15, 9, 0), (1, 60, 60, 0)], &[]);
    let unshifted = "1.0 / 0.0 / / / 0.1 / / / / 0.2 / / / 0.3 / / / ";
    checks_as(&later, &table(4, 60, unshifted), -14);
}

/// 001, task 2: (3,15,3) (3,10,5) (3,6,6), phases free. 3 is the only length. With all phases
/// 0 the first two tasks both need frame 0; with phases 0, 1 and 3 all ten frames are full.
#[test]
fn document_001_task_2() {
    let in_phase = request(&[(3, 15, 3, 0), (3, 10, 5, 0), (3, 6, 6, 0)], &[]);
    assert_eq!(lengths(&in_phase), [3]);
    refused(&in_phase, 10);
    let shifted = request(&[(3, 15, 3, 0), (3, 10, 5, 1), (3, 6, 6, 3)], &[]);
    let rows = "0.0 / 1.0 / 2.0 / 2.1 / 1.1 / 0.1 / 2.2 / 1.2 / 2.3 / 2.4";
    plans_as(&shifted, 3, 30, rows);
}

/// 002, first table: four tasks and the system management, deadlines equal to periods; H is 40 in
/// the document too. Phases are not given, 0 is taken; the system management is the last task, as
/// in the table. The schedule is a picture that the text has not.
#[test]
fn document_002_first_table() {
    let bytes = request(
        &[
            (2, 10, 10, 0),
            (4, 20, 20, 0),
            (3, 40, 40, 0),
            (5, 40, 40, 0),
            (1, 10, 10, 0),
        ],
        &[],
    );
    assert_eq!(example("doc002-1.req"), bytes);
    assert_eq!(lengths(&bytes), [10, 5]);
    let rows = "0.0 1.0 2.0 4.0 / 0.1 3.0 4.1 / 0.2 1.1 4.2 / 0.3 4.3";
    plans_as(&bytes, 10, 40, rows);
}

/// 002, second table: the fourth task now takes 17 ticks, more than the shortest deadline, so no
/// length is plausible. The task has to be split by hand to fit into the slots. The pieces are not
/// given; 7, 3 and 7, in order, have a table in which no tick is left.
#[test]
fn document_002_second_table() {
    let around = |pieces: &[Short]| {
        let mut tasks = vec![(2, 10, 10, 0), (4, 20, 20, 0), (3, 40, 40, 0)];
        tasks.extend(pieces);
        tasks.push((1, 10, 10, 0));
        tasks
    };
    let whole = request(&around(&[(17, 40, 40, 0)]), &[]);
    assert_eq!(example("doc002-2.req"), whole);
    refused(&whole, 9);
    let pieces = [(7, 40, 40, 0), (3, 40, 40, 0), (7, 40, 40, 0)];
    let cut = request(&around(&pieces), &[(3, 4), (4, 5)]);
    let rows = "0.0 1.0 2.0 6.0 / 0.1 3.0 6.1 / 0.2 1.1 4.0 6.2 / 0.3 5.0 6.3";
    plans_as(&cut, 10, 40, rows);
    let busy = |line: &str| line.split(' ').nth(1) == Some("10");
    assert!(listing(&cut).lines().skip(1).all(busy));
}

/// 003, example 1: (1,4,4) (1,5,5) (1.5,20,20), here in half ticks. The document finds 2 (here
/// 4) and leaves 4, 5 and 10 open; by its own rule none of them is plausible. It prefers the
/// smallest length and we the largest: with one length there is no difference.
#[test]
fn document_003_example_1() {
    let halves = request(&[(2, 8, 8, 0), (2, 10, 10, 0), (3, 40, 40, 0)], &[]);
    assert_eq!(lengths(&halves), [4]);
    let rows = "0.0 1.0 / 2.0 / 0.1 / 1.1 / 0.2 / 1.2 / 0.3 / / 0.4 1.3 / ";
    plans_as(&halves, 4, 40, rows);
}

/// 003, example 2: (1,4,4) (2,6,6) (3,20,20). Candidates 3, 4, 5, 6, 10, 12 and so on; 3 fails
/// and 4 holds in the document; by the same rule all above 4 fail too.
#[test]
fn document_003_example_2() {
    let bytes = request(&[(1, 4, 4, 0), (2, 6, 6, 0), (3, 20, 20, 0)], &[]);
    assert_eq!(lengths(&bytes), [4]);
    let rows = "0.0 1.0 / 0.1 2.0 / 0.2 1.1 / 0.3 1.2 / 0.4 / 0.5 1.3 / 0.6 1.4 / 0.7 2.1 / \
                0.8 1.5 / 0.9 1.6 / 0.10 2.2 / 0.11 1.7 / 0.12 1.8 / 0.13 / 0.14 1.9";
    plans_as(&bytes, 4, 60, rows);
}

/// 003, closing remark: (20,100,100) may be cut into two of (10,100,100). The larger length is
/// preferred here (004), so a frame of the whole cycle holds both pieces; the smallest that
/// 003 would take, 10, is plausible only after the cut.
#[test]
fn document_003_cutting() {
    let whole = request(&[(20, 100, 100, 0)], &[]);
    let cut = request(&[(10, 100, 100, 0), (10, 100, 100, 0)], &[(0, 1)]);
    assert!(!lengths(&whole).contains(&10));
    assert!(lengths(&cut).contains(&10));
    plans_as(&cut, 100, 100, "0.0 1.0");
    let smallest = format!("0.0 / 1.0{}", " / ".repeat(8));
    checks_as(&cut, &table(10, 100, &smallest), 0);
}

/// 004, table 1 (the VCE system): M = 100, m = 10. The document's heuristics place by shortest
/// deadline; the order here is by release, so only the sizes are comparable.
#[test]
fn document_004_vce() {
    let bytes = request(
        &[
            (2, 10, 10, 0),
            (2, 20, 10, 0),
            (1, 50, 10, 0),
            (6, 50, 50, 0),
            (8, 100, 100, 0),
        ],
        &[],
    );
    assert_eq!(lengths(&bytes), [10]);
    let rows = "0.0 1.0 2.0 / 0.1 3.0 / 0.2 1.1 / 0.3 4.0 / 0.4 1.2 / 0.5 2.1 3.1 / \
                0.6 1.3 / 0.7 / 0.8 1.4 / 0.9";
    plans_as(&bytes, 10, 100, rows);
    assert!(
        listing(&bytes).starts_with("frame 10 cycle 100 rows 10\n0 5 0.0 1.0 2.0\n1 8 0.1 3.0\n")
    );
}

/// 004, table 2 (a car control system): M = 80; 20 is the only length from C = 16 up that
/// keeps its rule 5.
#[test]
fn document_004_car() {
    let bytes = request(&[(4, 20, 20, 0), (10, 40, 40, 0), (16, 80, 80, 0)], &[]);
    assert_eq!(lengths(&bytes), [20]);
    plans_as(&bytes, 20, 80, "0.0 1.0 / 0.1 2.0 / 0.2 1.1 / 0.3");
}
