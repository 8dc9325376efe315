//! The heater link: worked lists of frames, every pattern of losses over short lists, every byte of a
//! heater, and which number is given when several would do.

use crate::common::{plan, subject, subjects, table, tell};
use bus_tests::bus::{Bus, ENTRIES_LEN, HEATER_LEN, LINK_BYTES};
use bus_tests::call::Call;
use bus_tests::compare::compare;
use bus_tests::reference::heater::{Event, Fate, History, Lost, Pair};
use bus_tests::reference::table::{decode, encode, Entry, Table};
use bus_tests::rounds::heater::call;
use bus_tests::sheet::{self, request, with_section};
use bus_tests::simulate::heater::Link;

const FRESH: [u8; 4] = [0, 1, 0, 0];

fn pair(a: u8, b: u8) -> Pair {
    Pair { a, b }
}

/// A request with the pair 0, 1, and a table of it.
struct Case {
    name: &'static str,
    request: Vec<u8>,
    table: Vec<u8>,
}

fn case(name: &'static str, request: Vec<u8>, f: i64, h: i64, rows: &str) -> Case {
    Case {
        name,
        request,
        table: table(f, h, rows),
    }
}

fn in_one_frame() -> Case {
    let tasks = [(1, 4, 4, 0), (1, 4, 4, 0)];
    let request = request(&tasks, &[(0, 1), (0, 1)]);
    case("in one frame", request, 4, 4, "0.0 1.0")
}

fn in_two_frames() -> Case {
    let tasks = [(1, 4, 4, 0), (1, 4, 4, 0)];
    case(
        "in two frames",
        request(&tasks, &[(0, 1)]),
        2,
        4,
        "0.0 / 1.0",
    )
}

/// The reply is carried: in the first cycle it is left out.
fn reply_carried() -> Case {
    let tasks = [(1, 4, 2, 2), (1, 4, 3, 2)];
    let rows = "1.0+ / / / 0.0";
    case("reply carried", request(&tasks, &[(0, 1)]), 1, 4, rows)
}

fn both_carried() -> Case {
    let tasks = [(1, 4, 4, 3), (1, 4, 4, 3)];
    let rows = "0.0+ 1.0+ / ";
    case("both carried", request(&tasks, &[(0, 1)]), 2, 4, rows)
}

fn carried_apart() -> Case {
    let tasks = [(1, 4, 4, 3), (1, 4, 4, 3)];
    let rows = "0.0+ / / 1.0+ / ";
    case("carried apart", request(&tasks, &[(0, 1)]), 1, 4, rows)
}

/// Two jobs of each in a cycle: together in a frame, and apart.
fn two_jobs() -> Case {
    let tasks = [(1, 6, 6, 0), (1, 6, 6, 0), (1, 12, 12, 0)];
    let rows = "0.0 1.0 2.0 / / 0.1 / 1.1";
    case("two jobs", request(&tasks, &[(0, 1)]), 3, 12, rows)
}

/// The reply is carried into the frame of the next cycle's command.
fn carried_beside_the_next() -> Case {
    let tasks = [(1, 6, 6, 0), (1, 6, 6, 4)];
    let rows = "0.0 1.0+ / / ";
    case("carried beside", request(&tasks, &[(0, 1)]), 2, 6, rows)
}

fn cases() -> Vec<Case> {
    vec![
        in_one_frame(),
        in_two_frames(),
        reply_carried(),
        both_carried(),
        carried_apart(),
        two_jobs(),
        carried_beside_the_next(),
    ]
}

/// A heater with these bytes of the link, and all others so that a change is seen.
fn heater(row: u16, mark: u8, link: [u8; 4]) -> Vec<u8> {
    let mut bytes: Vec<u8> = (100..100 + HEATER_LEN as u8 + 5).collect();
    bytes[..2].copy_from_slice(&row.to_le_bytes());
    bytes[2] = mark;
    bytes[LINK_BYTES].copy_from_slice(&link);
    bytes
}

fn fresh(bus: &dyn Bus) -> Vec<u8> {
    let mut bytes = vec![0xC3; HEATER_LEN];
    assert_eq!(bus.heater_fresh(&mut bytes), 0);
    bytes
}

/// What is lost in a frame, as in a pattern of the command `bus`.
fn lost(letter: char) -> u8 {
    ".crb".find(letter).expect("one of the four") as u8
}

/// The answers of a list of calls, a letter for what is lost in each: number of entries, toggled,
/// answered.
fn answers(bus: &dyn Bus, case: &Case, pattern: &str) -> Vec<(i32, u8, u8)> {
    let mut heater = fresh(bus);
    let (request, table) = (&case.request, &case.table);
    let answer = |letter| {
        let mut entries = [0; ENTRIES_LEN];
        let lost = lost(letter);
        let count = bus.heater_serve(request, table, 0, 1, lost, &mut heater, &mut entries);
        (count, heater[66], heater[67])
    };
    pattern.chars().map(answer).collect()
}

fn plays_as(case: &Case, pattern: &str, expected: &[(i32, u8, u8)]) {
    for (name, bus) in subjects() {
        let told = answers(bus, case, pattern);
        assert_eq!(told, expected, "{name}: {} {pattern}", case.name);
    }
}

#[test]
fn the_tables_are_accepted() {
    for case in cases() {
        for (name, bus) in subjects() {
            assert_eq!(
                bus.check(&case.request, &case.table),
                0,
                "{name}: {}",
                case.name
            );
        }
    }
}

/// The old fault: the reply is lost and the command sent again. It does not toggle again.
#[test]
fn a_command_sent_again_does_not_toggle_again() {
    let one = in_one_frame();
    plays_as(&one, "rrr.", &[(2, 1, 0), (2, 0, 0), (2, 0, 0), (2, 0, 1)]);
    let two = in_two_frames();
    let told = [(1, 1, 0), (1, 0, 0), (1, 0, 0), (1, 0, 1), (1, 1, 0)];
    plays_as(&two, ".r...", &told);
}

/// A lost reply, again, then a command lost, whose reply answers nothing, then both, then neither.
#[test]
fn lost_in_turn() {
    let told = [
        (2, 1, 0),
        (2, 0, 0),
        (2, 0, 1),
        (2, 0, 0),
        (2, 0, 0),
        (2, 1, 1),
    ];
    plays_as(&in_one_frame(), "rr.cb.", &told);
}

#[test]
fn nothing_lost_toggles_with_every_command() {
    plays_as(&in_one_frame(), "....", &[(2, 1, 1); 4]);
    plays_as(&in_two_frames(), "....", &[(1, 1, 0), (1, 0, 1)].repeat(2));
    plays_as(&in_one_frame(), "bbbb", &[(2, 0, 0); 4]);
    plays_as(&in_one_frame(), "cccc", &[(2, 0, 0); 4]);
}

/// No reply in frame 0, the command in frame 3, its reply in frame 4. What is told of losses where
/// nothing is served means nothing.
#[test]
fn a_carried_reply() {
    let told = [(0, 0, 0), (0, 0, 0), (0, 0, 0), (1, 1, 0), (1, 0, 1)];
    plays_as(&reply_carried(), ".bbrc", &told);
    plays_as(&reply_carried(), "bbbr.", &told);
    let stale = [(0, 0, 0), (0, 0, 0), (0, 0, 0), (1, 0, 0), (1, 0, 0)];
    plays_as(&reply_carried(), "...c.", &stale);
}

/// An entry that is left out in the first cycle sends nothing.
#[test]
fn both_left_out_at_first() {
    let told = [(0, 0, 0), (0, 0, 0), (2, 1, 1), (0, 0, 0), (2, 1, 1)];
    plays_as(&both_carried(), ".....", &told);
}

/// A reply that is carried into the frame of the next cycle's command is served behind it.
#[test]
fn a_reply_behind_the_next_command() {
    let told = [
        (1, 1, 0),
        (0, 0, 0),
        (0, 0, 0),
        (2, 0, 1),
        (0, 0, 0),
        (0, 0, 0),
        (2, 1, 1),
    ];
    plays_as(&carried_beside_the_next(), ".......", &told);
    plays_as(&carried_beside_the_next(), "r..c...", &told);
}

/// One heater over a list in which calls are refused: each refused call changes nothing. 30 for the pair
/// turned round and for a task twice, 14 before it, 1 before all, 12 before 30, and 15 of next-frame.
#[test]
fn refused_in_a_list() {
    let (one, late) = (in_one_frame(), reply_carried());
    let list: [(&[u8], &[u8], u8, u8, (i32, u8, u8)); 9] = [
        (&one.request, &one.table, 1, 0, (-30, 0, 0)),
        (&one.request, &one.table, 0, 0, (-30, 0, 0)),
        (&one.request, &one.table, 0, 1, (2, 1, 1)),
        (&one.request, &late.table, 1, 0, (-14, 1, 1)),
        (&[], &[], 0, 1, (-1, 1, 1)),
        (&one.request, &[], 5, 6, (-12, 1, 1)),
        (&one.request, &one.table, 0, 1, (2, 1, 1)),
        (&late.request, &late.table, 0, 1, (1, 0, 0)),
        (&one.request, &one.table, 0, 1, (-15, 0, 0)),
    ];
    for (name, bus) in subjects() {
        let mut heater = fresh(bus);
        for (call, (request, table, a, b, expected)) in list.into_iter().enumerate() {
            let before = heater.clone();
            let mut entries = [0; ENTRIES_LEN];
            let count = bus.heater_serve(request, table, a, b, 0, &mut heater, &mut entries);
            assert_eq!((count, heater[66], heater[67]), expected, "{name}: {call}");
            assert!(count >= 0 || heater == before, "{name}: {call}");
        }
    }
}

/// The numbers of commands, without bits: a copy that arrives has the number of the current command,
/// and a reply has the highest number that arrived.
#[derive(Default)]
struct Numbered {
    current: usize,
    arrived: Option<usize>,
    toggles: usize,
}

impl Numbered {
    fn frame(&mut self, command: bool, reply: bool) {
        if command && self.arrived != Some(self.current) {
            self.arrived = Some(self.current);
            self.toggles += 1;
        }
        if reply && self.arrived == Some(self.current) {
            self.current += 1;
        }
    }
}

/// The reference beside numbered commands: one history over the whole list.
#[test]
fn the_reference_itself() {
    let row = |rows: &str| decode(&table(4, 4, rows)).expect("a table").rows[0].clone();
    let rows = [row("0.0 1.0"), row("0.0"), row("1.0"), row("")];
    for list in 0..16_usize.pow(5) {
        let mut history = History::since(false, true);
        let mut numbered = Numbered::default();
        for frame in 0..5 {
            let what = list / 16_usize.pow(frame) % 16;
            let (served, told) = (&rows[what / 4], Lost::told((what % 4) as u8));
            history.frame(pair(0, 1), served, told);
            let serves = |task| served.iter().any(|entry| entry.task == task);
            numbered.frame(serves(0) && !told.command, serves(1) && !told.reply);
            assert_eq!(history.count(Event::Toggled), numbered.toggles);
            assert_eq!(history.count(Event::Answered), numbered.current);
        }
    }
    let mut history = History::since(false, true);
    history.frame(pair(0, 1), &rows[0], Lost::told(2));
    let told = [
        Event::Command(false, Fate::Arrives),
        Event::Toggled,
        Event::Reply(false, Fate::Lost),
    ];
    assert_eq!(history.events, told);
}

/// Every list of so many frames and every pattern of losses, judged by R-13's words.
#[test]
fn every_pattern_of_losses() {
    let mut lists = 0;
    for case in cases() {
        for (name, bus) in subjects() {
            let link = Link::start(bus, &case.request, &case.table, pair(0, 1));
            let played = link.and_then(|link| link.every_pattern(6));
            match played {
                Ok(count) => lists += count,
                Err(fault) => panic!("{name}: {}: {fault}", case.name),
            }
        }
    }
    assert_eq!(lists, subjects().len() * cases().len() * 4_096);
}

/// From frame 5 on every pattern over five frames more, where nothing is lost before.
#[test]
fn every_pattern_in_a_later_cycle() {
    for case in cases() {
        for (name, bus) in subjects() {
            let link = Link::start(bus, &case.request, &case.table, pair(0, 1));
            let played = link.and_then(|mut link| {
                (0..5).try_for_each(|_| link.serve(0).map(|_| ()))?;
                link.every_pattern(5)
            });
            assert_eq!(played, Ok(1_024), "{name}: {}", case.name);
        }
    }
}

/// It never runs out: 70,000 frames, in each of which something else is lost.
#[test]
fn a_list_of_70000_frames() {
    let case = in_one_frame();
    let mut link = Link::start(subject(), &case.request, &case.table, pair(0, 1)).expect("fresh");
    for frame in 0..70_000_u32 {
        let lost = (frame.wrapping_mul(2_654_435_761) >> 29) as u8;
        link.serve(lost).unwrap_or_else(|fault| panic!("{fault}"));
    }
    let (toggles, answered) = (link.list.toggles, link.list.answered);
    assert!(toggles > 10_000 && toggles - answered <= 1, "{toggles}");
    tell(format!("heater: 70000 frames, {toggles} toggles\n"));
}

/// The bytes of a fresh heater, and none behind them.
#[test]
fn the_bytes_of_a_fresh_heater() {
    let mut expected = vec![0; HEATER_LEN];
    expected[2] = 1;
    expected[LINK_BYTES].copy_from_slice(&FRESH);
    for (name, bus) in subjects() {
        for length in [HEATER_LEN, HEATER_LEN + 1, 300] {
            let mut bytes = vec![0xC3; length];
            assert_eq!(bus.heater_fresh(&mut bytes), 0, "{name}");
            assert_eq!(bytes[..HEATER_LEN], expected, "{name}");
            assert!(bytes[HEATER_LEN..].iter().all(|byte| *byte == 0xC3));
        }
        for length in [0, 1, 64, 68, 71] {
            let mut bytes = vec![0xC3; length];
            assert_eq!(bus.heater_fresh(&mut bytes), -99, "{name}");
            assert!(bytes.iter().all(|byte| *byte == 0xC3), "{name}");
        }
    }
}

/// One call from each of the link's bits, and every loss: every byte of the heater and of the entries.
#[test]
fn the_bytes_of_a_served_frame() {
    let case = in_one_frame();
    for (name, bus) in subjects() {
        for bits in 0..16_u8 {
            let link = [bits & 1, bits >> 1 & 1, bits >> 2 & 1, bits >> 3];
            for told in 0..4 {
                let mut lent = heater(0, 1, link);
                let mut expected = lent.clone();
                let (master, obeyed) = (link[0], link[1]);
                let arrived = told & 1 == 0;
                let toggled = arrived && master != obeyed;
                let obeyed = if arrived { master } else { obeyed };
                let answered = told & 2 == 0 && obeyed == master;
                let after = [
                    master ^ u8::from(answered),
                    obeyed,
                    u8::from(toggled),
                    u8::from(answered),
                ];
                expected[..3].copy_from_slice(&[0, 0, 0]);
                expected[LINK_BYTES].copy_from_slice(&after);
                let mut entries = [0xC3; ENTRIES_LEN + 4];
                let (request, table) = (&case.request, &case.table);
                let count = bus.heater_serve(request, table, 0, 1, told, &mut lent, &mut entries);
                assert_eq!(count, 2, "{name}");
                assert_eq!(lent, expected, "{name}: {link:?} {told}");
                assert_eq!(entries[..4], [0, 0, 1, 0], "{name}");
                assert_eq!(entries[4..ENTRIES_LEN], [0; ENTRIES_LEN - 4], "{name}");
                assert_eq!(entries[ENTRIES_LEN..], [0xC3; 4], "{name}");
            }
        }
    }
}

/// The subject's outcome is the reference's.
fn same(made: &Call) -> i32 {
    let outcome = compare(subject(), made).unwrap_or_else(|fault| panic!("{fault}"));
    outcome.answer
}

/// Every value of `lost`, and every value of the bytes that say what a heater is.
#[test]
fn every_value_of_every_byte() {
    let case = in_two_frames();
    let (request, table) = (&case.request, &case.table);
    let entries = [0xC3; ENTRIES_LEN];
    for row in 0..2 {
        for value in 0..=255 {
            for bits in 0..4 {
                let lent = heater(row, 0, [bits & 1, bits >> 1, 0, 1]);
                let made = call(request, table, pair(0, 1), value, &lent, &entries);
                assert_eq!(same(&made), 1);
            }
            for place in [0, 1, 2, 34, 35, 63, 64, 65, 66, 67, 68, 71] {
                let mut lent = heater(row, 0, FRESH);
                lent[place] = value;
                let judged = [2, 64, 65, 66, 67].contains(&place);
                let expected = match place {
                    0 if value > 1 => -15,
                    1 if value > 0 => -15,
                    _ if judged && value > 1 => -99,
                    _ => 1,
                };
                let made = call(request, table, pair(0, 1), 0, &lent, &entries);
                assert_eq!(same(&made), expected, "byte {place} {value}");
            }
        }
    }
}

/// Every two numbers for the pair: one of the request's in this order, and no other.
#[test]
fn every_two_tasks() {
    let pairs = [(0, 2), (1, 2), (0, 2), (3, 4)];
    let bytes = request(&[(1, 20, 20, 0); 5], &pairs);
    let entries = [0; ENTRIES_LEN];
    for (name, bus) in subjects() {
        let table = plan(bus, &bytes).expect("it has a table");
        let heater = fresh(bus);
        for a in 0..=255 {
            for b in 0..=255 {
                let answer = bus.heater_serve(
                    &bytes,
                    &table,
                    a,
                    b,
                    0,
                    &mut heater.clone(),
                    &mut entries.clone(),
                );
                let is_pair = pairs.contains(&(usize::from(a), usize::from(b)));
                let expected = if is_pair { 5 } else { -30 };
                assert_eq!(answer, expected, "{name}: {a} {b}");
            }
        }
    }
}

/// One pair after the other on the same heater: it is the call that names the pair, and the bits stay.
#[test]
fn the_pair_is_named_by_the_call() {
    let bytes = request(&[(1, 4, 4, 0); 3], &[(0, 1), (1, 2)]);
    let table = table(4, 4, "0.0 1.0 2.0");
    for (name, bus) in subjects() {
        let mut heater = fresh(bus);
        let mut told = Vec::new();
        for (a, b, lost) in [(0, 1, 2), (1, 2, 1), (0, 1, 0), (1, 2, 0)] {
            let mut entries = [0; ENTRIES_LEN];
            let count = bus.heater_serve(&bytes, &table, a, b, lost, &mut heater, &mut entries);
            told.push((count, heater[66], heater[67]));
        }
        let expected = [(3, 1, 0), (3, 0, 1), (3, 1, 1), (3, 1, 1)];
        assert_eq!(told, expected, "{name}");
    }
}

/// One fault of each of the numbers that the check gives, in its order.
fn unchecked(number: i32) -> (Vec<u8>, Vec<u8>) {
    let case = in_two_frames();
    let ok = case.request.clone();
    let bad = |bytes: &[u8]| (bytes.to_vec(), vec![2]);
    match number {
        1 => bad(&ok[..5]),
        2 => bad(&[17]),
        3 => bad(&request(&[(3, 8, 2, 0)], &[])),
        4 => bad(&[1, 1, 0, 8, 0, 8, 0, 0, 0, 17]),
        5 => bad(&request(&[(1, 8, 8, 0), (1, 9, 9, 0)], &[(0, 1)])),
        17 => bad(&with_section(ok, &[1, 16])),
        6 => bad(&with_section(ok, &[1, 2, 0])),
        7 => bad(&request(&[(1, 101, 101, 0), (1, 103, 103, 0)], &[])),
        8 => bad(&sheet::p11()),
        12 => (ok, vec![2]),
        13 => (ok, table(4, 8, "0.0 1.0 / 0.1 1.1")),
        14 => (ok, table(2, 4, "1.0 / 0.0")),
        _ => (ok, case.table),
    }
}

/// Every set of faults: the one that is judged first gives its number. A refused call changes nothing.
#[test]
fn every_set_of_faults_gives_the_first() {
    let checks = [1, 2, 3, 4, 5, 17, 6, 7, 8, 12, 13, 14];
    let checks: Vec<Option<i32>> = [None].into_iter().chain(checks.map(Some)).collect();
    for fault in checks {
        let (request, table) = unchecked(fault.unwrap_or(0));
        for set in 0..16 {
            let [short, link, no_pair, row] = [1, 2, 4, 8].map(|bit| set & bit != 0);
            let room = if short { ENTRIES_LEN - 1 } else { ENTRIES_LEN };
            let bits = if link { [0, 1, 0, 2] } else { FRESH };
            let pair = if no_pair { pair(1, 0) } else { pair(0, 1) };
            let lent = heater(if row { 2 } else { 1 }, 1, bits);
            let made = call(&request, &table, pair, 0, &lent, &vec![0xC3; room]);
            let first = (short || link).then_some(99).or(fault);
            let first = first.or(no_pair.then_some(30)).or(row.then_some(15));
            let expected = first.map_or(1, |number| -number);
            assert_eq!(same(&made), expected, "{fault:?} {set}");
        }
    }
}

/// A buffer of each length: 72 bytes are a heater, 32 are enough for the entries.
#[test]
fn the_lengths_of_the_buffers() {
    let case = in_one_frame();
    let lent = heater(0, 1, FRESH);
    for length in 0..lent.len() {
        for room in [0, 31, 32, 33, 40] {
            let entries = vec![0xC3; room];
            let (request, table) = (&case.request, &case.table);
            let made = call(request, table, pair(0, 1), 0, &lent[..length], &entries);
            let good = length >= HEATER_LEN && room >= ENTRIES_LEN;
            assert_eq!(same(&made), if good { 2 } else { -99 });
        }
    }
}

/// A heater in which the bits do not belong together as those of a fresh one and its calls do, is one
/// too: with equal bits the first reply answers.
#[test]
fn a_heater_that_no_list_leaves() {
    let case = in_two_frames();
    let lent = heater(1, 0, [1, 1, 1, 1]);
    let (request, table) = (&case.request, &case.table);
    let made = call(request, table, pair(0, 1), 1, &lent, &[0; ENTRIES_LEN]);
    let outcome = compare(subject(), &made).expect("the same");
    assert_eq!(outcome.buffers[0][LINK_BYTES], [0, 1, 0, 1]);
}

/// The longest rows: 16 tasks in a frame, the pair first and last, and a cycle of 256 rows.
#[test]
fn long_rows_and_many() {
    let crowd = request(&[(1, 16, 16, 0); 16], &[(0, 15)]);
    let many = request(&[(1, 256, 256, 0), (1, 256, 256, 0)], &[(0, 1)]);
    let mut rows = vec![Vec::new(); 256];
    for (row, task) in [(0, 0), (255, 1)] {
        let (job, carry) = (0, false);
        rows[row].push(Entry { task, job, carry });
    }
    let (f, h) = (1, 256);
    let sparse = encode(&Table { f, h, rows });
    for (name, bus) in subjects() {
        let full = plan(bus, &crowd).expect("it has a table");
        for (request, table, b, frames) in [(&crowd, &full, 15, 6), (&many, &sparse, 1, 1_100)] {
            let mut link = Link::start(bus, request, table, pair(0, b)).expect("fresh");
            for frame in 0..frames {
                let lost = (frame / 256) as u8;
                let told = link.serve(lost);
                told.unwrap_or_else(|fault| panic!("{name}: {fault}"));
            }
            assert!(link.list.toggles > 1, "{name}");
        }
    }
}
