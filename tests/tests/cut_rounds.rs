//! Seeded requests cut by the subject and by the reference, flights of what was written, and tools
//! that only look right when they cut, which the comparison must catch.

use crate::common::{subject, tell, tell_left_out};
use bus_tests::bus::Bus;
use bus_tests::comparison::{Seeded, Tally, MOST_TRIES};
use bus_tests::reference::cut::{cut, Cut};
use bus_tests::reference::request::{read, write, Request, Task};
use bus_tests::reference::{read_cycle, Reference};
use bus_tests::rounds::cutting;
use bus_tests::shams::Hunt;
use bus_tests::simulate::cut::fly_cut;

const REQUESTS: u64 = if cfg!(feature = "linked") { 3_000 } else { 600 };
const FLIGHTS: u64 = if cfg!(feature = "linked") { 2_000 } else { 300 };

fn judge(tally: &Tally) {
    tally.judge_variety(&["cut"], REQUESTS / 100);
    assert!(tally.count("cut", 0) > tally.calls / 6, "few files");
    assert!(tally.count("plan", 0) > tally.requests / 20, "few tables");
}

#[test]
fn every_answer_and_byte_is_the_same() {
    let seeded = Seeded {
        round: cutting::round,
        seeds: &[71, 72, 73, 74],
        requests: REQUESTS,
    };
    let tally = seeded.compare(subject(), judge);
    tell(format!(
        "cutting: {} requests; {} of the files planned up to {MOST_TRIES} tries, since their search is longer\n",
        tally.requests, tally.left_out
    ));
}

/// In flight both pieces of a job run inside the old window, the second after the first, and the old
/// pairs stay in order.
#[test]
fn the_pieces_run_in_order_inside_the_old_window() {
    let done = fly_cut(subject(), 75, FLIGHTS).unwrap_or_else(|fault| panic!("{fault}"));
    println!("{done:?}");
    tell_left_out("cut flights", done.requests, done.left_out, MOST_TRIES);
    assert!(done.freed * 10 > done.flights, "{done:?}");
    assert!(done.with_old_pairs * 5 > done.flights, "{done:?}");
    assert!(done.with_silence * 5 > done.flights, "{done:?}");
    assert!(done.jobs > 3 * done.flights, "{done:?}");
    assert!(done.later * 3 > done.jobs, "{done:?}");
    assert!(done.in_two_frames * 10 > done.jobs, "{done:?}");
    assert!(done.in_two_cycles * 100 > done.jobs, "{done:?}");
}

bus_tests::shams! {
    CutsAtTheStart,
    CutsAtTheEnd,
    CutsBehindTheEnd,
    LeavesPairsAtTheFirstPiece,
    MovesPairsToTheSecondPiece,
    SwapsThePiecesInPairs,
    NewPairAtTheEnd,
    NewPairTurned,
    NoNewPair,
    NewPairInPlaceOfTheFirst,
    MovesNoTaskInPairs,
    MovesTheFirstOfAPairOnly,
    MovesTheSecondOfAPairOnly,
    MovesOneOfEqualPairs,
    SecondPieceBehindAllTasks,
    SwapsTheLengths,
    KeepsTheWholeLength,
    ShortensTheFirstDeadline,
    LengthensTheSecondDeadline,
    ReleasesTheSecondLater,
    ReleasesTheFirstEarlier,
    DropsAPairThatStandsTwice,
    DropsSilence,
    WritesAGOfZero,
    CopiesTheThirdSection,
    TwentyFiveBeforeTwentyFour,
    NineteenBeforeTwentyFive,
    NineteenBeforeTwentyFour,
    ElevenFirst,
    SixteenForNoTask,
    EighteenForTwentyFive,
    FifteenTasksAreTooMany,
    FifteenPairsAreTooMany,
    TakesTheTaskModulo16,
    TakesTheLowByteOfThePiece,
    RefusesToCutInHalf,
    JudgesTheCycle,
    TakesBytesBehind,
    WritesBehindTheFile,
    WritesBeforeRefusing,
    WritesBeforeTwentyFour,
    AsksForOneByteMore,
}

/// The number of the task, or of the first piece, where task i is cut.
fn first_of(task: usize, i: usize) -> usize {
    task + usize::from(task > i)
}

/// The number of the task, or of the second piece, where task i is cut.
fn last_of(task: usize, i: usize) -> usize {
    task + usize::from(task >= i)
}

/// The request cut at task i, whatever the pieces are.
fn with_pieces(old: &Request, i: usize, first: i64) -> Request {
    let mut new = old.clone();
    let rest = (old.tasks[i].c - first).rem_euclid(65_536);
    new.tasks[i].c = first;
    let second = Task {
        c: rest,
        ..old.tasks[i]
    };
    new.tasks.insert(i + 1, second);
    for pair in &mut new.pairs {
        *pair = (last_of(pair.0, i), first_of(pair.1, i));
    }
    new.pairs.insert(0, (i, i + 1));
    new
}

impl Sham {
    /// The cut that the lie takes for the one asked.
    fn taken(&self, asked: Cut) -> Cut {
        match self.0 {
            Lie::TakesTheTaskModulo16 => Cut {
                task: asked.task % 16,
                ..asked
            },
            Lie::TakesTheLowByteOfThePiece => Cut {
                first: asked.first % 256,
                ..asked
            },
            _ => asked,
        }
    }

    /// The number that the lie gives in place of the reference's.
    fn number(&self, request: &[u8], room: usize, number: i32) -> i32 {
        let Ok(old) = read(request) else {
            return number;
        };
        let (tasks, pairs) = (old.tasks.len() == 16, old.pairs.len() == 16);
        match self.0 {
            Lie::TwentyFiveBeforeTwentyFour if number == 24 && tasks => 25,
            Lie::NineteenBeforeTwentyFive if number == 25 && pairs => 19,
            Lie::NineteenBeforeTwentyFour if number == 24 && pairs => 19,
            Lie::ElevenFirst if room < request.len() => 11,
            Lie::SixteenForNoTask if number == 24 => 16,
            Lie::EighteenForTwentyFive if number == 25 => 18,
            _ => number,
        }
    }

    /// Whether the lie refuses what can be cut, and with which number.
    fn refused_anyway(&self, request: &[u8], asked: Cut) -> Option<i32> {
        let old = read(request).ok()?;
        cut(request, asked).ok()?;
        let half = old.tasks[usize::from(asked.task)].c == 2 * i64::from(asked.first);
        match self.0 {
            Lie::FifteenTasksAreTooMany => (old.tasks.len() == 15).then_some(25),
            Lie::FifteenPairsAreTooMany => (old.pairs.len() == 15).then_some(19),
            Lie::RefusesToCutInHalf => half.then_some(24),
            Lie::JudgesTheCycle => read_cycle(request).err(),
            _ => None,
        }
    }

    /// What the lie cuts although it must not.
    fn cut_anyway(&self, request: &[u8], asked: Cut) -> Option<Vec<u8>> {
        let old = read(request).ok()?;
        let (i, first) = (usize::from(asked.task), i64::from(asked.first));
        let c = old.tasks.get(i)?.c;
        let lets = match self.0 {
            Lie::CutsAtTheStart => first == 0,
            Lie::CutsAtTheEnd => first == c,
            Lie::CutsBehindTheEnd => first > c,
            _ => false,
        };
        let room = old.tasks.len() < 16 && old.pairs.len() < 16;
        (lets && room).then(|| write(&with_pieces(&old, i, first)))
    }

    /// The pair that the lie writes for this one.
    fn old_pair(&self, i: usize, (a, b): (usize, usize)) -> (usize, usize) {
        let (last, first) = (last_of(a, i), first_of(b, i));
        match self.0 {
            Lie::LeavesPairsAtTheFirstPiece => (first_of(a, i), first),
            Lie::MovesPairsToTheSecondPiece => (last, last_of(b, i)),
            Lie::SwapsThePiecesInPairs => (first_of(a, i), last_of(b, i)),
            Lie::MovesNoTaskInPairs => (a + usize::from(a == i), b),
            Lie::MovesTheFirstOfAPairOnly => (last, b),
            Lie::MovesTheSecondOfAPairOnly => (a, first),
            _ => (last, first),
        }
    }

    fn pairs(&self, old: &Request, i: usize) -> Vec<(usize, usize)> {
        let new = (i, i + 1);
        let behind = old.pairs.iter().map(|pair| self.old_pair(i, *pair));
        let mut pairs: Vec<_> = behind.collect();
        if self.0 == Lie::MovesOneOfEqualPairs {
            for (place, pair) in pairs.iter_mut().enumerate() {
                if old.pairs[..place].contains(&old.pairs[place]) {
                    *pair = old.pairs[place];
                }
            }
        }
        match self.0 {
            Lie::NewPairAtTheEnd => pairs.push(new),
            Lie::NewPairTurned => pairs.insert(0, (i + 1, i)),
            Lie::NoNewPair => {}
            Lie::NewPairInPlaceOfTheFirst if !pairs.is_empty() => pairs[0] = new,
            _ => pairs.insert(0, new),
        }
        if self.0 == Lie::DropsAPairThatStandsTwice {
            pairs.dedup();
        }
        pairs
    }

    /// The request that the lie writes.
    fn new_request(&self, old: &Request, asked: Cut) -> Request {
        let i = usize::from(asked.task);
        let mut new = with_pieces(old, i, i64::from(asked.first));
        new.pairs = self.pairs(old, i);
        let first = new.tasks[i].c;
        match self.0 {
            Lie::SecondPieceBehindAllTasks => {
                new.tasks[i + 1..].rotate_left(1);
                let last = old.tasks.len();
                let behind = old.pairs.iter().filter(|pair| pair.0 != i);
                new.pairs = [(i, last)].iter().chain(behind).copied().collect();
            }
            Lie::SwapsTheLengths => {
                new.tasks[i].c = new.tasks[i + 1].c;
                new.tasks[i + 1].c = first;
            }
            Lie::KeepsTheWholeLength => new.tasks[i + 1].c = old.tasks[i].c,
            Lie::ShortensTheFirstDeadline => new.tasks[i].d -= new.tasks[i + 1].c,
            Lie::LengthensTheSecondDeadline => {
                let second = &mut new.tasks[i + 1];
                second.d = second.t.min(second.d + first);
            }
            Lie::ReleasesTheSecondLater => new.tasks[i + 1].p += first,
            Lie::ReleasesTheFirstEarlier => new.tasks[i].p = (new.tasks[i].p - first).max(0),
            Lie::DropsSilence => new.g = 0,
            _ => {}
        }
        new
    }

    fn file(&self, request: &[u8], asked: Cut) -> Vec<u8> {
        let old = read(request).expect("it is cut");
        let mut bytes = write(&self.new_request(&old, asked));
        let third = 2 + 8 * old.tasks.len() + 2 * old.pairs.len();
        match self.0 {
            Lie::WritesAGOfZero if old.g == 0 => bytes.extend([1, 0]),
            Lie::CopiesTheThirdSection if old.g == 0 => bytes.extend(&request[third..]),
            _ => {}
        }
        bytes
    }

    fn put(&self, bytes: &[u8], out: &mut [u8]) -> i32 {
        let needed = bytes.len() + usize::from(self.0 == Lie::AsksForOneByteMore);
        if out.len() < needed {
            if self.0 == Lie::WritesBeforeRefusing {
                out.copy_from_slice(&bytes[..out.len()]);
            }
            return -11;
        }
        if self.0 == Lie::WritesBehindTheFile {
            out.fill(0);
        }
        out[..bytes.len()].copy_from_slice(bytes);
        bytes.len() as i32
    }
}

/// The bytes without those behind the third section.
fn without_bytes_behind(bytes: &[u8]) -> &[u8] {
    let readable = |end: &usize| read(&bytes[..*end]).is_ok();
    match (0..bytes.len()).rev().find(readable) {
        Some(end) if read(bytes) == Err(6) => &bytes[..end],
        _ => bytes,
    }
}

impl Bus for Sham {
    fn cut(&self, request: &[u8], task: u8, first: u16, out: &mut [u8]) -> i32 {
        let asked = self.taken(Cut { task, first });
        if self.0 == Lie::TakesBytesBehind {
            return Reference.cut(without_bytes_behind(request), task, first, out);
        }
        if let Some(number) = self.refused_anyway(request, asked) {
            return -number;
        }
        match cut(request, asked) {
            Ok(_) => self.put(&self.file(request, asked), out),
            Err(number) => match self.cut_anyway(request, asked) {
                Some(bytes) => self.put(&bytes, out),
                None => {
                    if self.0 == Lie::WritesBeforeTwentyFour && number == 24 {
                        out.iter_mut().take(1).for_each(|byte| *byte ^= 1);
                    }
                    -self.number(request, out.len(), number)
                }
            },
        }
    }
}

#[test]
fn every_lie_is_caught() {
    let hunt = Hunt {
        round: cutting::round,
        seed: 76,
        requests: 2_000,
    };
    hunt.catches(42, Sham);
}

/// The flights see by themselves that a piece runs before the old release or after the old due time,
/// and that pieces, or a piece and its partner, are out of order.
#[test]
fn flights_catch_what_breaks_the_old_promise() {
    let lies = [
        Lie::NoNewPair,
        Lie::NewPairInPlaceOfTheFirst,
        Lie::LeavesPairsAtTheFirstPiece,
        Lie::MovesPairsToTheSecondPiece,
        Lie::LengthensTheSecondDeadline,
        Lie::ReleasesTheFirstEarlier,
    ];
    for lie in lies {
        let done = fly_cut(&Sham(lie), 77, FLIGHTS);
        assert!(done.is_err(), "{lie:?} flew: {done:?}");
        println!("{lie:?}: {done:?}");
        let fault = done.unwrap_err();
        let seen = fault.contains("pieces") || fault.contains("old pair");
        assert!(seen, "{lie:?}: {fault}");
    }
    let honest = fly_cut(&Sham(Lie::None), 77, FLIGHTS / 3);
    assert!(honest.is_ok(), "{honest:?}");
}
