//! Two requests joined: every byte of what is written, and which number is given when several
//! would do.

use crate::common::{plan, subject, subjects};
use bus_tests::bus::Bus;
use bus_tests::call::Call;
use bus_tests::compare::compare;
use bus_tests::reference::request::{read, Request};
use bus_tests::reference::Reference;
use bus_tests::sheet::{self, request, silent_request, with_section, Short};

/// The longest request has 1 + 16 · 8 + 1 + 16 · 2 + 2 bytes.
const LONGEST: usize = 164;

const TASK: Short = (1, 160, 160, 0);

/// A request of n tasks, all with the same period, and m pairs.
fn sized(n: usize, m: usize, g: i64) -> Vec<u8> {
    let pairs = vec![(0, n.max(2) - 1); m];
    silent_request(&vec![TASK; n], &pairs, g)
}

/// What a join call writes, with the bytes behind it tested, or the refusal.
fn join(bus: &dyn Bus, first: &[u8], second: &[u8], room: usize) -> Result<Vec<u8>, i32> {
    let mut out = vec![0xC3; room];
    let answer = bus.join(first, second, &mut out);
    let length = answer.max(0) as usize;
    assert!(out[length..].iter().all(|byte| *byte == 0xC3));
    if answer < 0 {
        return Err(-answer);
    }
    out.truncate(length);
    Ok(out)
}

/// The two are joined as this file, in a buffer of its length and in longer ones, and not in one
/// that is shorter by a byte.
fn joins_as(first: &[u8], second: &[u8], file: &[u8]) {
    for (name, bus) in subjects() {
        for room in [file.len(), file.len() + 1, LONGEST, 3_000] {
            assert_eq!(join(bus, first, second, room), Ok(file.to_vec()), "{name}");
        }
        let short = join(bus, first, second, file.len() - 1);
        assert_eq!(short, Err(11), "{name}");
        assert_eq!(join(bus, first, second, 0), Err(11), "{name}");
    }
}

/// The two are refused with this number, whatever the buffer's length.
fn refused(first: &[u8], second: &[u8], number: i32) {
    for (name, bus) in subjects() {
        for room in [0, 1, LONGEST, 3_000] {
            let answer = join(bus, first, second, room);
            assert_eq!(answer, Err(number), "{name}: {first:?} {second:?}");
        }
    }
}

#[test]
fn the_bytes_of_a_joined_file() {
    let first = [
        2, 1, 0, 8, 0, 8, 0, 0, 0, 2, 0, 8, 0, 7, 0, 1, 0, 1, 0, 1, 1, 3,
    ];
    let second = [
        3, 1, 0, 4, 0, 4, 0, 0, 0, 1, 0, 8, 0, 8, 0, 0, 0, 44, 1, 8, 7, 8, 7, 5, 0, 0, 1, 3,
    ];
    let pairs_of_second = [
        3, 1, 0, 4, 0, 4, 0, 0, 0, 1, 0, 4, 0, 4, 0, 0, 0, 44, 1, 4, 7, 4, 7, 5, 0, 1, 0, 1, 1, 3,
    ];
    let whole = [
        5, 1, 0, 8, 0, 8, 0, 0, 0, 2, 0, 8, 0, 7, 0, 1, 0, 1, 0, 4, 0, 4, 0, 0, 0, 1, 0, 8, 0, 8,
        0, 0, 0, 44, 1, 8, 7, 8, 7, 5, 0, 1, 0, 1, 1, 3,
    ];
    joins_as(&first, &second, &whole);
    let with_pairs = [
        5, 1, 0, 8, 0, 8, 0, 0, 0, 2, 0, 8, 0, 7, 0, 1, 0, 1, 0, 4, 0, 4, 0, 0, 0, 1, 0, 4, 0, 4,
        0, 0, 0, 44, 1, 4, 7, 4, 7, 5, 0, 2, 0, 1, 2, 3, 1, 3,
    ];
    joins_as(&first, &pairs_of_second, &with_pairs);
}

#[test]
fn the_second_battery_board() {
    let old = request(
        &[(2, 20, 20, 0), (3, 40, 40, 0), (4, 40, 30, 10)],
        &[(1, 2)],
    );
    let new = request(&[(5, 40, 40, 0), (1, 20, 20, 0), (2, 40, 40, 0)], &[(0, 2)]);
    let whole = request(
        &[
            (2, 20, 20, 0),
            (3, 40, 40, 0),
            (4, 40, 30, 10),
            (5, 40, 40, 0),
            (1, 20, 20, 0),
            (2, 40, 40, 0),
        ],
        &[(1, 2), (3, 5)],
    );
    joins_as(&old, &new, &whole);
    for (name, bus) in subjects() {
        let file = join(bus, &old, &new, LONGEST).expect("they fit");
        assert!(plan(bus, &file).is_ok(), "{name}");
        assert_eq!(plan(bus, &file), plan(&Reference, &whole), "{name}");
    }
}

/// The ways to say g in a third section.
fn sections(g: u8) -> Vec<Vec<u8>> {
    match g {
        0 => vec![vec![], vec![0], vec![1, 0]],
        _ => vec![vec![1, g]],
    }
}

#[test]
fn every_g_with_every_g_and_no_third_section_for_0() {
    for g in 0..16 {
        for h in 0..16 {
            for ours in sections(g) {
                for theirs in sections(h) {
                    let first = with_section(sheet::p1(), &ours);
                    let second = with_section(sheet::p3(), &theirs);
                    if g != h {
                        refused(&first, &second, 20);
                        continue;
                    }
                    let mut whole = [&[7], &sheet::p1()[1..25], &sheet::p3()[1..33]].concat();
                    whole.extend([1, 5, 6]);
                    if g > 0 {
                        whole.extend([1, g]);
                    }
                    joins_as(&first, &second, &whole);
                }
            }
        }
    }
}

#[test]
fn sixteen_tasks_fit_and_seventeen_do_not() {
    for n in 1..=16 {
        for m in 1..=16 {
            let (first, second) = (sized(n, 0, 2), sized(m, 0, 2));
            if n + m <= 16 {
                joins_as(&first, &second, &sized(n + m, 0, 2));
            } else {
                refused(&first, &second, 18);
            }
        }
    }
}

#[test]
fn sixteen_pairs_fit_and_seventeen_do_not() {
    for n in 0..=16 {
        for m in 0..=16 {
            let (first, second) = (sized(2, n, 0), sized(3, m, 0));
            if n + m <= 16 {
                let pairs = [vec![(0, 1); n], vec![(2, 4); m]].concat();
                joins_as(&first, &second, &request(&[TASK; 5], &pairs));
            } else {
                refused(&first, &second, 19);
            }
        }
    }
}

/// A cycle that is too long, and too many jobs, are none of joining's numbers.
#[test]
fn the_cycle_is_not_judged() {
    let long = request(&[(1, 9_973, 1, 0)], &[]);
    let other = request(&[(1, 9_967, 1, 0), (1, 65_535, 65_535, 65_534)], &[]);
    let whole = request(
        &[
            (1, 9_973, 1, 0),
            (1, 9_967, 1, 0),
            (1, 65_535, 65_535, 65_534),
        ],
        &[],
    );
    joins_as(&long, &other, &whole);
    let many = [&[4], &sheet::p11()[1..17], &sheet::p11()[1..17], &[0]].concat();
    joins_as(&sheet::p11(), &sheet::p11(), &many);
}

/// One fault of each of the numbers that a request is refused with.
fn unreadable(number: i32) -> Vec<u8> {
    match number {
        1 => sheet::p3()[..20].to_vec(),
        2 => vec![17],
        3 => request(&[(3, 8, 2, 0)], &[]),
        4 => vec![1, 1, 0, 8, 0, 8, 0, 0, 0, 17],
        5 => request(&[(1, 8, 8, 0), (1, 9, 9, 0)], &[(0, 1)]),
        6 => with_section(sheet::p1(), &[1, 2, 0]),
        _ => with_section(sheet::p1(), &[1, 16]),
    }
}

const OWN: [i32; 7] = [1, 2, 3, 4, 5, 6, 17];

/// A readable pair of requests with these faults: too many tasks, too many pairs, differing g.
fn misfits(tasks: bool, pairs: bool, silence: bool) -> (Vec<u8>, Vec<u8>) {
    let first = sized(9, 9, 3);
    let n = if tasks { 8 } else { 7 };
    let m = if pairs { 8 } else { 7 };
    let g = if silence { 4 } else { 3 };
    (first, sized(n, m, g))
}

/// All orders of two faults, and of more: the one that is judged first gives its number.
#[test]
fn every_set_of_faults_gives_the_first() {
    let own: Vec<Option<i32>> = [None].into_iter().chain(OWN.map(Some)).collect();
    for set in 0..16 {
        let [tasks, pairs, silence, short] = [1, 2, 4, 8].map(|bit| set & bit != 0);
        for first_fault in &own {
            for second_fault in &own {
                let (mut first, mut second) = misfits(tasks, pairs, silence);
                if let Some(number) = first_fault {
                    first = unreadable(*number);
                }
                if let Some(number) = second_fault {
                    second = unreadable(*number);
                }
                let later = [(tasks, 18), (pairs, 19), (silence, 20), (short, 11)];
                let met = later.iter().find(|(fault, _)| *fault);
                let expected = first_fault
                    .or(*second_fault)
                    .or(met.map(|&(_, number)| number));
                let room = if short { 3 } else { LONGEST };
                for (name, bus) in subjects() {
                    let answer = join(bus, &first, &second, room);
                    assert_eq!(answer.err(), expected, "{name}: {first:?} {second:?}");
                }
            }
        }
    }
}

/// Two faults of the requests themselves, in every order, with good bytes between.
#[test]
fn the_first_request_is_refused_before_the_second() {
    for one in OWN {
        refused(&unreadable(one), &sheet::p1(), one);
        refused(&sheet::p1(), &unreadable(one), one);
        for other in OWN {
            refused(&unreadable(one), &unreadable(other), one);
        }
    }
}

#[test]
fn no_cut_makes_a_long_input_good() {
    let mut longer = sheet::p1();
    longer.resize(5_000, 0);
    refused(&longer, &sheet::p1(), 6);
    refused(&sheet::p1(), &longer, 6);
    refused(&[], &sheet::p1(), 1);
    refused(&sheet::p1(), &[], 1);
}

/// Both inputs may be the same bytes.
#[test]
fn a_request_joins_with_itself() {
    let bytes = sheet::p3();
    let tasks = &bytes[1..33];
    let whole = [&[8], tasks, tasks, &[2, 2, 3, 6, 7]].concat();
    joins_as(&bytes, &bytes, &whole);
}

fn parts(bytes: &[u8]) -> Request {
    read(bytes).expect("it was written")
}

/// Whichever two of three are joined first, the file is the same.
#[test]
fn three_boards_in_either_order() {
    let boards = [
        sheet::p1(),
        sheet::p3(),
        sheet::p6(),
        sheet::p7(),
        sized(2, 5, 0),
    ];
    for (name, bus) in subjects() {
        for a in &boards {
            for b in &boards {
                for c in &boards {
                    let ab = join(bus, a, b, LONGEST).expect("few tasks");
                    let bc = join(bus, b, c, LONGEST).expect("few tasks");
                    let left = join(bus, &ab, c, LONGEST);
                    assert_eq!(left, join(bus, a, &bc, LONGEST), "{name}");
                    let whole = parts(&left.expect("few tasks"));
                    let count = [a, b, c].map(|board| parts(board).tasks.len());
                    assert_eq!(whole.tasks.len(), count.iter().sum::<usize>());
                }
            }
        }
    }
}

/// What is written reads back as the tasks, pairs and g of the two.
#[test]
fn what_is_written_is_the_request_of_the_two() {
    let first = silent_request(&[(1, 8, 8, 0), (2, 8, 7, 3)], &[(0, 1), (0, 1)], 5);
    let second = silent_request(
        &[(3, 9, 9, 8), (1, 9, 5, 0), (9, 9, 9, 0)],
        &[(1, 2), (0, 2)],
        5,
    );
    let (one, two) = (parts(&first), parts(&second));
    for (name, bus) in subjects() {
        let whole = parts(&join(bus, &first, &second, LONGEST).expect("they fit"));
        assert_eq!(whole.tasks[..2], one.tasks, "{name}");
        assert_eq!(whole.tasks[2..], two.tasks, "{name}");
        assert_eq!(whole.pairs, [(0, 1), (0, 1), (3, 4), (2, 4)], "{name}");
        assert_eq!(whole.g, 5, "{name}");
    }
}

/// Every value of every byte of two requests, in both places.
#[test]
fn every_value_of_every_byte() {
    let tasks = [(3, 700, 500, 200), (4, 700, 600, 0)];
    let mut files = 0;
    for pairs in [&[][..], &[(0, 1)]] {
        let good = silent_request(&tasks, pairs, 5);
        for at in 0..good.len() {
            for value in 0..=255 {
                let mut bytes = good.clone();
                bytes[at] = value;
                files += files_of(&bytes, &good) + files_of(&good, &bytes);
            }
        }
    }
    assert!(files > 2_000, "{files}");
}

/// 1 if the two are joined and 0 if not, alike by the subject and the reference.
fn files_of(first: &[u8], second: &[u8]) -> usize {
    let call = Call::join(first, second, &[0x3C; 50]);
    let outcome = compare(subject(), &call).unwrap_or_else(|fault| panic!("{fault}"));
    usize::from(outcome.answer > 0)
}
