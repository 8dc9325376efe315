//! The limit on tries: worked cases and edges, and tools that only look right, each of which the
//! comparison must catch.

use crate::common::{plan, subjects, table};
use bus_tests::bus::{Bus, TRIES_LEN};
use bus_tests::comparison::MOST_TRIES;
use bus_tests::generate;
use bus_tests::random::Random;
use bus_tests::reference::cycle::Job;
use bus_tests::reference::model::window;
use bus_tests::reference::request::{read, write};
use bus_tests::reference::tries::{Test, Tests};
use bus_tests::reference::{read_cycle, tries_within, Reference};
use bus_tests::rounds::planning;
use bus_tests::shams::Hunt;
use bus_tests::sheet::{self, request};

/// The answer and the count, with room enough, after a look at the bytes beside them.
fn planned(bus: &dyn Bus, request: &[u8], allowance: u64) -> (i32, u64) {
    let (mut out, mut tries) = ([0x5A; 600], [0x5A; TRIES_LEN + 3]);
    let answer = bus.plan(request, allowance, &mut out, &mut tries);
    let length = answer.max(0) as usize;
    assert!(out[length..].iter().all(|byte| *byte == 0x5A));
    assert_eq!(tries[TRIES_LEN..], [0x5A; 3]);
    let count = tries.first_chunk().expect("it has eight bytes");
    (answer, u64::from_le_bytes(*count))
}

/// The full search comes to this answer with so many tries: 23 with any fewer, nothing else with
/// any more.
fn takes(request: &[u8], answer: i32, full: u64) {
    for (name, bus) in subjects() {
        for allowance in 0..full {
            let ended = planned(bus, request, allowance);
            assert_eq!(ended, (-23, allowance), "{name}");
        }
        for allowance in [full, full + 1, full + 1_000, u64::MAX - 1, u64::MAX] {
            assert_eq!(planned(bus, request, allowance), (answer, full), "{name}");
        }
    }
}

/// In P1 every job is placed in the first frame that it is tested in.
#[test]
fn p1_takes_a_try_for_each_job() {
    takes(&sheet::p1(), 19, 5);
}

/// P5 by hand. With frames of 20: 0.0, 1.0 in frame 0; 2.0 passed over in 0 and placed in 1; 0.1 in 1,
/// 1.1 passed over: 6 tries. With frames of 10: 0.0 in 0 or 1 and 1.0 in the other, each time tested
/// in both; then 2.0 is tested in four frames and placed in 2 and in 3, each time 0.1 is tested in two
/// and placed in the other, and 1.1 passed over in two: 2 + 2·(2 + 4 + 2·(2 + 2)) = 30 tries.
#[test]
fn p5_takes_the_tries_of_both_lengths() {
    takes(&sheet::p5(), -10, 36);
}

/// A pair holds task 0 before task 1, which is released first. With frames of 12: 1.0 in frame 0, and
/// 0.0 passed over in 1, behind it; 1.0 in 1, and 0.0 passed over there, since it is full: 4 tries.
/// With frames of 8: 1.0 in 0, and 0.0 passed over in 1 and 2; 1.0 in 1, and 0.0 passed over in 1,
/// which is full, and in 2; 1.0 in 2, and 0.0 in 1: 3 + 3 + 2 tries.
#[test]
fn frames_that_break_a_pair_count() {
    let tasks = [(7, 24, 18, 6), (7, 24, 24, 0)];
    takes(&request(&tasks, &[(0, 1)]), 14, 12);
}

/// 1 to 9 and 17 are answered without a try, whatever is allowed.
#[test]
fn refused_before_the_search() {
    let six = sheet::with_section(sheet::p1(), &[0, 0]);
    let seventeen = sheet::with_section(sheet::p1(), &[2]);
    let tasks = [(1, 8, 8, 0), (1, 8, 8, 0)];
    let mut four = request(&tasks, &[]);
    four[17] = 17;
    for (bytes, number) in [
        (vec![], 1),
        (vec![0], 2),
        (request(&[(0, 1, 1, 0)], &[]), 3),
        (four, 4),
        (request(&tasks, &[(1, 0)]), 5),
        (six, 6),
        (seventeen, 17),
        (sheet::p12_long(), 7),
        (sheet::p11(), 8),
        (sheet::p2(), 9),
        (sheet::p10(), 9),
    ] {
        takes(&bytes, -number, 0);
    }
}

/// A buffer that is too short for the table: 23 while the search is not at its end, then 11 with
/// the tries of the full search.
#[test]
fn twenty_three_comes_before_eleven() {
    for (name, bus) in subjects() {
        for room in [0, 1, 18] {
            for allowance in 0..9 {
                let (mut out, mut tries) = (vec![0x5A; room], [0x5A; TRIES_LEN]);
                let answer = bus.plan(&sheet::p1(), allowance, &mut out, &mut tries);
                let expected = if allowance < 5 { -23 } else { -11 };
                assert_eq!(answer, expected, "{name}");
                assert_eq!(u64::from_le_bytes(tries), allowance.min(5), "{name}");
                assert!(out.iter().all(|byte| *byte == 0x5A), "{name}");
            }
        }
    }
}

/// A buffer of fewer than 8 bytes for the count gives 99 before every other number and changes
/// nothing; bytes behind the first 8 of a longer one stay.
#[test]
fn buffers_for_the_count() {
    let expected = table(20, 40, "0.0 1.0 2.0 / 0.1 1.1");
    for (name, bus) in subjects() {
        for request in [sheet::p1(), sheet::p2(), sheet::p5(), sheet::p11(), vec![]] {
            for allowance in [0, 3, u64::MAX] {
                for length in 0..TRIES_LEN {
                    let (mut out, mut tries) = ([0x5A; 40], vec![0xA5; length]);
                    let answer = bus.plan(&request, allowance, &mut out, &mut tries);
                    assert_eq!(answer, -99, "{name}");
                    assert_eq!(out, [0x5A; 40], "{name}");
                    assert_eq!(tries, vec![0xA5; length], "{name}");
                }
            }
        }
        for length in [8, 9, 15, 16, 300, 70_000] {
            let (mut out, mut tries) = ([0x5A; 40], vec![0xA5; length]);
            let answer = bus.plan(&sheet::p1(), 5, &mut out, &mut tries);
            assert_eq!(out[..answer as usize], expected, "{name}");
            assert_eq!(tries[..TRIES_LEN], [5, 0, 0, 0, 0, 0, 0, 0], "{name}");
            assert!(tries[TRIES_LEN..].iter().all(|byte| *byte == 0xA5));
        }
    }
}

/// The count stands low byte first.
#[test]
fn counts_above_a_byte() {
    let bytes = sheet::pigeons(6, 5, 0);
    for (name, bus) in subjects() {
        let mut tries = [0x5A; TRIES_LEN];
        assert_eq!(bus.plan(&bytes, 0x1234, &mut [], &mut tries), -10, "{name}");
        let full = tries_within(&bytes, 0x1234).expect("they are enough");
        assert!(full > 256, "{full}");
        assert_eq!(tries, full.to_le_bytes(), "{name}");
        assert_eq!(bus.plan(&bytes, 0x102, &mut [], &mut tries), -23, "{name}");
        assert_eq!(tries, [2, 1, 0, 0, 0, 0, 0, 0], "{name}");
    }
}

/// What a team can do about 23: pairs that put transfers in order which are alike and in no other
/// pair, down the list, change no table and no other answer, and the search is not longer.
#[test]
fn pairs_of_transfers_that_are_alike() {
    let mut rng = Random::new(62);
    let (mut seen, mut tables, mut shorter) = (0, 0, 0);
    while seen < 1_500 {
        let mut read = read(&generate::valid_bytes(&mut rng)).expect("it can be read");
        let twin = rng.pick(&read.tasks);
        let alike: Vec<usize> = (0..read.tasks.len()).filter(|_| rng.chance(60)).collect();
        alike.iter().for_each(|i| read.tasks[*i] = twin);
        read.pairs
            .retain(|(a, b)| !alike.contains(a) && !alike.contains(b));
        let plainly = write(&read);
        let two = alike.windows(2).map(|two| (two[0], two[1]));
        read.pairs.extend(two.take(16 - read.pairs.len()));
        let paired = write(&read);
        let Some(full) = tries_within(&plainly, MOST_TRIES) else {
            continue;
        };
        for (name, bus) in subjects() {
            assert_eq!(plan(bus, &paired), plan(bus, &plainly), "{name}");
        }
        let fewer = tries_within(&paired, full).expect("no more tries are needed");
        seen += 1;
        tables += u64::from(plan(&Reference, &paired).is_ok());
        shorter += u64::from(fewer < full);
    }
    assert!(
        tables > 50 && shorter > 50,
        "{tables} tables, {shorter} shorter"
    );
}

bus_tests::shams! {
    FramesPassedOverAreNoTries,
    FullFramesAreNoTries,
    FramesThatBreakAPairAreNoTries,
    CountsAnewForEachLength,
    AllowsAnewForEachLength,
    CountsTheRestOfTheWindow,
    CountsJobs,
    EndsWithTheLastTry,
    AllowsOneMore,
    NoneAllowedIsNoLimit,
    TenWhenTheTriesAreUsedUp,
    ElevenBeforeTwentyThree,
    TwentyThreeBeforeNine,
    TwentyThreeForTablesOnly,
    TwentyThreeForTenOnly,
    NoCountWithTwentyThree,
    FullCountWithTwentyThree,
    AllowanceWithEleven,
    NoCountWithEleven,
    NoCountWithTen,
    AllowanceWithTables,
    CountsNothingOfARefusal,
    CountsATryOfNine,
    AllowanceCutTo32Bits,
    CountCutToAByte,
    WritesFourBytes,
    HighByteFirst,
    ClearsTheRestOfTheBuffer,
    AsksForNineBytes,
    TakesFourBytes,
    WritesWhatFits,
    NinetyNineBehindTheRequest,
    WritesTheTableOfAnEndedSearch,
}

/// The tests of a request's search, as far as they are looked at here.
fn tests(request: &[u8]) -> Vec<Test> {
    match read_cycle(request) {
        Ok(cycle) => Tests::of(&cycle).take(MOST_TRIES as usize).collect(),
        Err(_) => Vec::new(),
    }
}

/// How many frames are left behind the last one tested, in each of the plan's windows.
fn rest_of_the_windows(request: &[u8], answer: i32) -> u64 {
    let (Ok(cycle), true) = (read_cycle(request), answer > 0) else {
        return 0;
    };
    let made = tests(request);
    let f = made.last().expect("there is a plan").f;
    let rest = |(job, known): (usize, &Job)| {
        let last = made.iter().rfind(|test| test.job == job && test.f == f);
        let frame = last.expect("it was placed").frame;
        let frames = window(known, f, cycle.h / f);
        frames.iter().filter(|k| **k > frame).count() as u64
    };
    cycle.jobs.iter().enumerate().map(rest).sum()
}

impl Sham {
    /// The tries that this tool takes the full search to make, given the true number and answer.
    fn tries(&self, request: &[u8], answer: i32, full: u64) -> u64 {
        let counted = |counts: fn(&Test) -> bool| {
            let made = tests(request);
            made.iter().filter(|test| counts(test)).count() as u64
        };
        match self.0 {
            Lie::FramesPassedOverAreNoTries => counted(|test| !test.passed_over()),
            Lie::FullFramesAreNoTries => counted(|test| test.has_room),
            Lie::FramesThatBreakAPairAreNoTries => counted(|test| test.in_order),
            Lie::CountsTheRestOfTheWindow => full + rest_of_the_windows(request, answer),
            Lie::CountsJobs if answer > 0 => {
                let jobs = read_cycle(request).map_or(0, |cycle| cycle.jobs.len());
                jobs as u64
            }
            _ => full,
        }
    }

    /// Whether this tool ends the search, given the tries that it takes it to make.
    fn ends(&self, request: &[u8], answer: i32, full: u64, allowance: u64) -> bool {
        match self.0 {
            Lie::EndsWithTheLastTry => full > 0 && full >= allowance,
            Lie::AllowsOneMore => full > allowance.saturating_add(1),
            Lie::NoneAllowedIsNoLimit => allowance > 0 && full > allowance,
            Lie::TwentyThreeBeforeNine if answer == -9 => allowance == 0,
            Lie::TwentyThreeForTablesOnly if answer == -10 => false,
            Lie::TwentyThreeForTenOnly if answer > 0 || answer == -11 => false,
            Lie::AllowanceCutTo32Bits => full > allowance % (1 << 32),
            Lie::AllowsAnewForEachLength => {
                let made = tests(request);
                let mut lengths = made.chunk_by(|one, other| one.f == other.f);
                lengths.any(|length| length.len() as u64 > allowance)
            }
            _ => full > allowance,
        }
    }

    /// The count that this tool gives with its answer.
    fn count(&self, request: &[u8], answer: i32, full: u64, allowance: u64) -> u64 {
        let counted = if answer == -23 { allowance } else { full };
        match (self.0, answer) {
            (Lie::NoCountWithTwentyThree, -23) => 0,
            (Lie::FullCountWithTwentyThree, -23) => full,
            (Lie::AllowanceWithEleven, -11) => allowance,
            (Lie::NoCountWithEleven, -11) => 0,
            (Lie::NoCountWithTen, -10) => 0,
            (Lie::AllowanceWithTables, 1..) => allowance,
            (Lie::CountsATryOfNine, -9) => 1,
            (Lie::CountCutToAByte, _) => counted % 256,
            (Lie::CountsAnewForEachLength, 1.. | -10 | -11) => {
                let made = tests(request);
                let last = made.last().map_or(0, |test| test.f);
                made.iter().filter(|test| test.f == last).count() as u64
            }
            _ => counted,
        }
    }

    /// Puts the count into its buffer.
    fn put(&self, count: u64, answer: i32, tries: &mut [u8]) {
        match self.0 {
            Lie::CountsNothingOfARefusal if answer < 0 => return,
            Lie::ClearsTheRestOfTheBuffer => tries.fill(0),
            _ => {}
        }
        let bytes = match self.0 {
            Lie::HighByteFirst => count.to_be_bytes(),
            _ => count.to_le_bytes(),
        };
        let most = if self.0 == Lie::WritesFourBytes {
            4
        } else {
            TRIES_LEN
        };
        let length = tries.len().min(most);
        tries[..length].copy_from_slice(&bytes[..length]);
    }

    /// How many bytes this tool wants for the count.
    fn wants(&self) -> usize {
        match self.0 {
            Lie::AsksForNineBytes => 9,
            Lie::TakesFourBytes => 4,
            _ => TRIES_LEN,
        }
    }

    /// What this tool does where it has fewer.
    fn without_room(&self, request: &[u8], tries: &mut [u8]) -> i32 {
        match (self.0, read_cycle(request)) {
            (Lie::NinetyNineBehindTheRequest, Err(number)) => return -number,
            (Lie::WritesWhatFits, _) => self.put(0, -99, tries),
            _ => {}
        }
        -99
    }
}

impl Bus for Sham {
    fn plan(&self, request: &[u8], allowance: u64, out: &mut [u8], tries: &mut [u8]) -> i32 {
        if tries.len() < self.wants() {
            return self.without_room(request, tries);
        }
        let Some(full) = tries_within(request, MOST_TRIES) else {
            return Reference.plan(request, allowance, out, tries);
        };
        let mut table = out.to_vec();
        let answer = Reference.plan_freely(request, &mut table);
        let full = self.tries(request, answer, full);
        let ended = self.ends(request, answer, full, allowance);
        let answer = match self.0 {
            Lie::ElevenBeforeTwentyThree if answer == -11 => -11,
            Lie::TenWhenTheTriesAreUsedUp if ended => -10,
            _ if ended => -23,
            _ => answer,
        };
        if answer > 0 || self.0 == Lie::WritesTheTableOfAnEndedSearch && answer == -23 {
            out.copy_from_slice(&table);
        }
        let count = self.count(request, if ended { -23 } else { answer }, full, allowance);
        self.put(count, answer, tries);
        answer
    }
}

#[test]
fn the_comparison_catches_every_sham() {
    let hunt = Hunt {
        round: planning::round,
        seed: 61,
        requests: 2_000,
    };
    hunt.catches(33, Sham);
}
