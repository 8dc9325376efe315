//! One task of a request cut in two: every byte of what is written, and which number is given when
//! several would do.

use crate::common::{example, plan, subject, subjects};
use bus_tests::bus::Bus;
use bus_tests::call::Call;
use bus_tests::compare::compare;
use bus_tests::reference::cut::Cut;
use bus_tests::reference::request::{read, write, Request};
use bus_tests::rounds::cutting::call;
use bus_tests::sheet::{self, request, silent_request, with_section, Short};

/// The longest request has 1 + 16 · 8 + 1 + 16 · 2 + 2 bytes.
const LONGEST: usize = 164;

fn at(task: u8, first: u16) -> Cut {
    Cut { task, first }
}

/// What a cut call writes, with the bytes behind it tested, or the refusal.
fn cut(bus: &dyn Bus, request: &[u8], cut: Cut, room: usize) -> Result<Vec<u8>, i32> {
    let mut out = vec![0xC3; room];
    let answer = bus.cut(request, cut.task, cut.first, &mut out);
    let length = answer.max(0) as usize;
    assert!(out[length..].iter().all(|byte| *byte == 0xC3));
    if answer < 0 {
        return Err(-answer);
    }
    out.truncate(length);
    Ok(out)
}

/// The request is cut to this file, in a buffer of its length and in longer ones, and not in one that
/// is shorter by a byte.
fn cuts_as(request: &[u8], asked: Cut, file: &[u8]) {
    for (name, bus) in subjects() {
        for room in [file.len(), file.len() + 1, LONGEST, 3_000] {
            let written = cut(bus, request, asked, room);
            assert_eq!(written, Ok(file.to_vec()), "{name}: {asked:?}");
        }
        for room in [file.len() - 1, file.len() - 10, 1, 0] {
            let short = cut(bus, request, asked, room);
            assert_eq!(short, Err(11), "{name}: {asked:?} {room}");
        }
    }
}

/// The cut is refused with this number, whatever the buffer's length.
fn refused(request: &[u8], asked: Cut, number: i32) {
    for (name, bus) in subjects() {
        for room in [0, 1, LONGEST, 3_000] {
            let answer = cut(bus, request, asked, room);
            assert_eq!(answer, Err(number), "{name}: {asked:?} {request:?}");
        }
    }
}

fn parts(bytes: &[u8]) -> Request {
    read(bytes).expect("it can be read")
}

#[test]
fn p2_cut_at_4_is_p3() {
    cuts_as(&sheet::p2(), at(2, 4), &sheet::p3());
    cuts_as(&example("p2.req"), at(2, 4), &example("p3.req"));
    for (name, bus) in subjects() {
        assert_eq!(plan(bus, &sheet::p2()), Err(9), "{name}");
        let file = cut(bus, &sheet::p2(), at(2, 4), LONGEST).expect("it is cut");
        assert!(plan(bus, &file).is_ok(), "{name}");
    }
}

#[test]
fn the_bytes_of_a_cut_file() {
    let bytes = [
        3, 44, 1, 8, 7, 7, 7, 5, 0, 2, 0, 8, 7, 8, 7, 0, 0, 3, 0, 8, 7, 9, 0, 1, 0, 2, 0, 2, 0, 1,
        1, 3,
    ];
    let first_task = [
        4, 1, 0, 8, 7, 7, 7, 5, 0, 43, 1, 8, 7, 7, 7, 5, 0, 2, 0, 8, 7, 8, 7, 0, 0, 3, 0, 8, 7, 9,
        0, 1, 0, 3, 0, 1, 1, 3, 1, 2, 1, 3,
    ];
    cuts_as(&bytes, at(0, 1), &first_task);
    let late = [
        4, 43, 1, 8, 7, 7, 7, 5, 0, 1, 0, 8, 7, 7, 7, 5, 0, 2, 0, 8, 7, 8, 7, 0, 0, 3, 0, 8, 7, 9,
        0, 1, 0, 3, 0, 1, 1, 3, 1, 2, 1, 3,
    ];
    cuts_as(&bytes, at(0, 299), &late);
    let middle = [
        4, 44, 1, 8, 7, 7, 7, 5, 0, 1, 0, 8, 7, 8, 7, 0, 0, 1, 0, 8, 7, 8, 7, 0, 0, 3, 0, 8, 7, 9,
        0, 1, 0, 3, 1, 2, 0, 3, 0, 1, 1, 3,
    ];
    cuts_as(&bytes, at(1, 1), &middle);
    let last = [
        4, 44, 1, 8, 7, 7, 7, 5, 0, 2, 0, 8, 7, 8, 7, 0, 0, 2, 0, 8, 7, 9, 0, 1, 0, 1, 0, 8, 7, 9,
        0, 1, 0, 3, 2, 3, 0, 2, 0, 1, 1, 3,
    ];
    cuts_as(&bytes, at(2, 2), &last);
}

const LONG: Short = (5, 40, 30, 10);
const OTHER: Short = (3, 40, 40, 0);

/// The cut task second in pairs, first in pairs, and in none; a pair of tasks below it, of tasks above
/// it, and of one on each side.
#[test]
fn pairs_on_either_side_of_the_cut_task() {
    let pairs = [(0, 3), (1, 3), (3, 4), (3, 5), (0, 1), (4, 5), (1, 4)];
    let mut tasks = vec![OTHER; 6];
    tasks[3] = LONG;
    let old = request(&tasks, &pairs);
    tasks.splice(3..4, [(2, 40, 30, 10), (3, 40, 30, 10)]);
    let new = [
        (3, 4),
        (0, 3),
        (1, 3),
        (4, 5),
        (4, 6),
        (0, 1),
        (5, 6),
        (1, 5),
    ];
    cuts_as(&old, at(3, 2), &request(&tasks, &new));
}

#[test]
fn a_pair_that_stands_twice_stays_twice() {
    let tasks = [OTHER, LONG, OTHER];
    let pairs = [(0, 1), (1, 2), (0, 1), (1, 2), (0, 2), (0, 2)];
    let new_tasks = [OTHER, (4, 40, 30, 10), (1, 40, 30, 10), OTHER];
    let new = [(1, 2), (0, 1), (2, 3), (0, 1), (2, 3), (0, 3), (0, 3)];
    cuts_as(
        &request(&tasks, &pairs),
        at(1, 4),
        &request(&new_tasks, &new),
    );
}

#[test]
fn every_g_and_no_third_section_for_0() {
    for g in 0..16 {
        let sections = match g {
            0 => vec![vec![], vec![0], vec![1, 0]],
            _ => vec![vec![1, g]],
        };
        for section in sections {
            let old = with_section(sheet::p2(), &section);
            let third = if g > 0 { vec![1, g] } else { vec![] };
            cuts_as(&old, at(2, 4), &with_section(sheet::p3(), &third));
        }
    }
}

/// Both pieces have a tick at least.
#[test]
fn the_limits_of_the_first_piece() {
    for c in [1_u16, 2, 3, 8, 255, 256, 257, 65_535] {
        let t = 65_535;
        let whole = request(&[(i64::from(c), t, t, 0)], &[]);
        let outside = [0, c, c.saturating_add(1), c.saturating_add(256), 65_535];
        for first in outside {
            refused(&whole, at(0, first), 24);
        }
        for first in [1, 2, c / 2, c.saturating_sub(2), c - 1] {
            if first == 0 || first >= c {
                continue;
            }
            let two = [i64::from(first), i64::from(c - first)].map(|ticks| (ticks, t, t, 0));
            cuts_as(&whole, at(0, first), &request(&two, &[(0, 1)]));
        }
    }
}

/// Every task there is, with a first piece that each of them could have; and all numbers that none has.
#[test]
fn every_task_number() {
    for n in 1..=16_usize {
        let tasks: Vec<Short> = (0..n).map(|i| (20 + i as i64, 300, 300, 7)).collect();
        let old = request(&tasks, &[]);
        for task in 0..=255_u8 {
            let i = usize::from(task);
            if i >= n {
                refused(&old, at(task, 5), 24);
            } else if n == 16 {
                refused(&old, at(task, 5), 25);
            } else {
                let mut new = tasks.clone();
                new.splice(i..=i, [(5, 300, 300, 7), (15 + i as i64, 300, 300, 7)]);
                cuts_as(&old, at(task, 5), &request(&new, &[(i, i + 1)]));
            }
        }
    }
}

const TASK: Short = (2, 160, 160, 0);

/// A request of n tasks, all with the same period, and m pairs of the first and the last.
fn sized(n: usize, m: usize, g: i64) -> Vec<u8> {
    silent_request(&vec![TASK; n], &vec![(0, n - 1); m], g)
}

/// 16 tasks and 16 pairs may be written, and the longest file has 164 bytes.
#[test]
fn sixteen_tasks_and_pairs_fit_and_seventeen_do_not() {
    for n in 2..=16 {
        for m in 0..=16 {
            let old = sized(n, m, 9);
            for task in [0, n - 1, n / 2] {
                let asked = at(task as u8, 1);
                if n == 16 {
                    refused(&old, asked, 25);
                    continue;
                }
                if m == 16 {
                    refused(&old, asked, 19);
                    continue;
                }
                let mut tasks = vec![TASK; n + 1];
                tasks[task].0 = 1;
                tasks[task + 1].0 = 1;
                let moved = match task {
                    0 => (1, n),
                    _ if task == n - 1 => (0, n - 1),
                    _ => (0, n),
                };
                let pairs = [vec![(task, task + 1)], vec![moved; m]].concat();
                cuts_as(&old, asked, &silent_request(&tasks, &pairs, 9));
            }
        }
    }
    for (name, bus) in subjects() {
        let file = cut(bus, &sized(15, 15, 9), at(14, 1), LONGEST);
        assert_eq!(file.map(|file| file.len()), Ok(LONGEST), "{name}");
    }
}

/// A cycle that is too long, and too many jobs, are none of cutting's numbers.
#[test]
fn the_cycle_is_not_judged() {
    let old = request(&[(1, 9_973, 1, 0), (9, 9_967, 9, 9_966)], &[]);
    let new = [(1, 9_973, 1, 0), (2, 9_967, 9, 9_966), (7, 9_967, 9, 9_966)];
    cuts_as(&old, at(1, 2), &request(&new, &[(1, 2)]));
    let many = request(&[(1, 1, 1, 0), (128, 128, 128, 0)], &[]);
    let new = [(1, 1, 1, 0), (127, 128, 128, 0), (1, 128, 128, 0)];
    cuts_as(&many, at(1, 127), &request(&new, &[(1, 2)]));
}

/// One fault of each of the numbers that a request is refused with.
fn unreadable(number: i32) -> Vec<u8> {
    match number {
        1 => sheet::p3()[..20].to_vec(),
        2 => vec![17],
        3 => request(&[(3, 8, 2, 0)], &[]),
        4 => vec![1, 1, 0, 8, 0, 8, 0, 0, 0, 17],
        5 => request(&[(1, 8, 8, 0), (1, 9, 9, 0)], &[(0, 1)]),
        6 => with_section(sheet::p1(), &[1, 2, 0]),
        _ => with_section(sheet::p1(), &[1, 16]),
    }
}

const OWN: [i32; 7] = [1, 2, 3, 4, 5, 6, 17];

/// Every set of faults, each kind of a bad cut among them: the one that is judged first gives its
/// number.
#[test]
fn every_set_of_faults_gives_the_first() {
    let own: Vec<Option<i32>> = [None].into_iter().chain(OWN.map(Some)).collect();
    let good = [at(0, 1), at(7, 1), at(14, 1)];
    let bad = [
        at(16, 1),
        at(255, 1),
        at(0, 0),
        at(3, 2),
        at(14, 3),
        at(200, 0),
    ];
    for set in 0..16 {
        let [badly, tasks, pairs, short] = [1, 2, 4, 8].map(|bit| set & bit != 0);
        for fault in &own {
            let bytes = match fault {
                Some(number) => unreadable(*number),
                None => sized(15 + usize::from(tasks), 15 + usize::from(pairs), 3),
            };
            let later = [(badly, 24), (tasks, 25), (pairs, 19), (short, 11)];
            let met = later.iter().find(|(met, _)| *met);
            let expected = fault.or(met.map(|&(_, number)| number));
            let room = if short { LONGEST - 1 } else { LONGEST };
            for asked in if badly { &bad[..] } else { &good[..] } {
                for (name, bus) in subjects() {
                    let answer = cut(bus, &bytes, *asked, room);
                    assert_eq!(answer.err(), expected, "{name}: {asked:?} {bytes:?}");
                }
            }
        }
    }
}

/// A task that the request does not have is one just behind its last.
#[test]
fn the_first_number_that_no_task_has() {
    for n in 2..=15 {
        refused(&sized(n, 3, 0), at(n as u8, 1), 24);
        refused(&sized(n, 3, 0), at(n as u8 + 16, 1), 24);
    }
}

#[test]
fn no_end_makes_a_long_input_good() {
    let mut longer = sheet::p2();
    longer.resize(5_000, 0);
    refused(&longer, at(2, 4), 6);
    refused(&[], at(0, 1), 1);
}

/// A task cut in three, from either side: the same tasks, and the two new pairs in the order in which
/// they were added.
#[test]
fn three_pieces_from_either_side() {
    let old = silent_request(&[OTHER, LONG, OTHER], &[(0, 1), (1, 2)], 2);
    for (name, bus) in subjects() {
        let again = |one: Cut, two: Cut| {
            let file = cut(bus, &old, one, LONGEST).expect("it is cut");
            parts(&cut(bus, &file, two, LONGEST).expect("it is cut again"))
        };
        let front = again(at(1, 2), at(2, 1));
        let back = again(at(1, 3), at(1, 2));
        assert_eq!(front.tasks, back.tasks, "{name}");
        let lengths: Vec<i64> = front.tasks.iter().map(|task| task.c).collect();
        assert_eq!(lengths, [3, 2, 1, 2, 3], "{name}");
        assert_eq!(front.pairs, [(2, 3), (1, 2), (0, 1), (3, 4)], "{name}");
        assert_eq!(back.pairs, [(1, 2), (2, 3), (0, 1), (3, 4)], "{name}");
        assert_eq!((front.g, back.g), (2, 2), "{name}");
    }
}

/// Says of a file, in the words of the request alone, that it is the old one with this task cut.
fn is_cut_of(old: &Request, new: &Request, asked: Cut) {
    let i = usize::from(asked.task);
    let (one, two, whole) = (new.tasks[i], new.tasks[i + 1], old.tasks[i]);
    assert_eq!((one.c, one.c + two.c), (i64::from(asked.first), whole.c));
    for piece in [one, two] {
        assert_eq!((piece.t, piece.d, piece.p), (whole.t, whole.d, whole.p));
        assert!(piece.c > 0);
    }
    assert_eq!(new.tasks[..i], old.tasks[..i]);
    assert_eq!(new.tasks[i + 2..], old.tasks[i + 1..]);
    assert_eq!(new.g, old.g);
    assert_eq!(new.pairs[0], (i, i + 1));
    assert_eq!(new.pairs.len(), old.pairs.len() + 1);
    for (now, before) in new.pairs[1..].iter().zip(&old.pairs) {
        let joined = |task: usize| if task > i { task - 1 } else { task };
        assert_eq!((joined(now.0), joined(now.1)), *before);
        assert!(before.0 != i || now.0 == i + 1, "{before:?} {now:?}");
        assert!(before.1 != i || now.1 == i, "{before:?} {now:?}");
    }
}

/// Cuts at every task and at every tick, and just outside; how many were cut. A file is what the
/// reference writes, can be read, and is the old request with the task cut.
fn cut_everywhere(old: &Request) -> usize {
    let bytes = write(old);
    let mut files = 0;
    for task in 0..=old.tasks.len() {
        let c = old.tasks.get(task).map_or(1, |task| task.c);
        for first in 0..=c + 1 {
            let asked = at(task as u8, first as u16);
            let outcome = compare(subject(), &call(&bytes, asked, &[0x3C; 80]));
            let outcome = outcome.unwrap_or_else(|fault| panic!("{fault}"));
            let good = task < old.tasks.len() && 1 <= first && first < c;
            if !good {
                assert_eq!(outcome.answer, -24, "{old:?} {asked:?}");
                continue;
            }
            let file = &outcome.buffers[0][..outcome.answer as usize];
            is_cut_of(old, &parts(file), asked);
            files += 1;
        }
    }
    files
}

/// All lists of so many numbers, each below `most`.
fn lists(count: usize, most: usize) -> Vec<Vec<usize>> {
    (0..count).fold(vec![vec![]], |shorter, _| {
        let longer = |list: &Vec<usize>| {
            let list = list.clone();
            (0..most).map(move |next| [&list[..], &[next]].concat())
        };
        shorter.iter().flat_map(longer).collect()
    })
}

/// Every request of up to four tasks with lengths from a few, and every set of pairs, each pair once or
/// twice.
#[test]
fn every_cut_of_every_small_request() {
    let (mut requests, mut files) = (0, 0);
    for (n, lengths) in [
        (1, &[1, 2, 3, 4, 5][..]),
        (2, &[1, 2, 3]),
        (3, &[1, 2]),
        (4, &[3]),
    ] {
        let possible: Vec<(usize, usize)> =
            (0..n).flat_map(|b| (0..b).map(move |a| (a, b))).collect();
        for choice in lists(n, lengths.len()) {
            let tasks: Vec<Short> = (0..)
                .zip(&choice)
                .map(|(i, which)| (lengths[*which], 6, 5 + i % 2, i))
                .collect();
            for often in lists(possible.len(), 3) {
                let chosen = possible.iter().zip(often);
                let pairs: Vec<_> = chosen
                    .flat_map(|(pair, times)| vec![*pair; times])
                    .collect();
                let g = (pairs.len() % 3) as i64;
                files += cut_everywhere(&parts(&silent_request(&tasks, &pairs, g)));
                requests += 1;
            }
        }
    }
    assert_eq!(requests, 5 + 9 * 3 + 8 * 27 + 729);
    assert!(files > 5_000, "{files}");
}

/// Every number that a first piece can have.
#[test]
fn every_first_piece() {
    let tasks = [
        (1, 65_535, 1, 0),
        (300, 65_535, 400, 65_534),
        (65_535, 65_535, 65_535, 0),
    ];
    let old = parts(&request(&tasks, &[(0, 1), (1, 2)]));
    let bytes = write(&old);
    for (task, c) in [(0, 1), (1, 300), (2, 65_535)] {
        for first in 0..=u16::MAX {
            let asked = at(task, first);
            let outcome = compare(subject(), &call(&bytes, asked, &[0x3C; 50]));
            let outcome = outcome.unwrap_or_else(|fault| panic!("{fault}"));
            if first == 0 || first >= c {
                assert_eq!(outcome.answer, -24, "{asked:?}");
            } else {
                let file = &outcome.buffers[0][..outcome.answer as usize];
                is_cut_of(&old, &parts(file), asked);
            }
        }
    }
}

/// Every value of every byte of a request, cut at every task.
#[test]
fn every_value_of_every_byte() {
    let tasks = [(3, 700, 500, 200), (4, 700, 600, 0)];
    let mut files = 0;
    for pairs in [&[][..], &[(0, 1)]] {
        let good = silent_request(&tasks, pairs, 5);
        for place in 0..good.len() {
            for value in 0..=255 {
                let mut bytes = good.clone();
                bytes[place] = value;
                files += (0..3)
                    .map(|task| files_of(&bytes, at(task, 2)))
                    .sum::<usize>();
            }
        }
    }
    assert!(files > 2_000, "{files}");
}

/// 1 if the request is cut and 0 if not, alike by the subject and the reference.
fn files_of(request: &[u8], asked: Cut) -> usize {
    let call: Call = call(request, asked, &[0x3C; 50]);
    let outcome = compare(subject(), &call).unwrap_or_else(|fault| panic!("{fault}"));
    usize::from(outcome.answer > 0)
}
