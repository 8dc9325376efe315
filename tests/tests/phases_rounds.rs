//! Seeded requests whose phases are counted by the subject and by the reference, the counts beside the
//! subject's own planning, and tools that only look right when they count, which the comparison must
//! catch.

use std::collections::BTreeMap;

use crate::common::phases::{counted, planned_ends};
use crate::common::{subject, tell};
use bus_tests::bus::{put_counts, Bus, COUNTS_LEN};
use bus_tests::comparison::{Seeded, Tally};
use bus_tests::generate;
use bus_tests::random::Random;
use bus_tests::reference::cycle::{self, Cycle};
use bus_tests::reference::model::{plausible_lengths, MOST_ROWS};
use bus_tests::reference::phases::counts;
use bus_tests::reference::read_cycle;
use bus_tests::reference::request::{read, Request, Task};
use bus_tests::reference::search::{plan_of_length, Direction, Effort, Found};
use bus_tests::reference::tries::Tests;
use bus_tests::rounds::phases;
use bus_tests::shams::Hunt;

const REQUESTS: u64 = if cfg!(feature = "linked") { 2_500 } else { 500 };

fn judge(tally: &Tally) {
    tally.judge_variety(&["phases"], REQUESTS / 200);
    assert!(tally.count("phases", 0) > tally.calls / 2, "few counts");
}

#[test]
fn every_count_is_the_same() {
    let seeded = Seeded {
        round: phases::round,
        seeds: &[81, 82, 83, 84],
        requests: REQUESTS,
    };
    let tally = seeded.compare(subject(), judge);
    tell(format!("phases: {} requests\n", tally.requests));
}

/// Each count is the number of phases to which planning, by the subject's own call, gives that answer.
/// Requests of every kind, and periods up to 10,000.
#[test]
fn the_counts_are_those_of_planning() {
    let mut rng = Random::new(85);
    let mut kinds: BTreeMap<Vec<bool>, u64> = BTreeMap::new();
    let (mut seen, mut planned) = (0, 0);
    while seen < REQUESTS {
        let request = match rng.below(3) {
            0 => generate::short_bytes(&mut rng),
            1 => generate::lone_bytes(&mut rng),
            _ => generate::valid_bytes(&mut rng),
        };
        let Ok(cycle) = read_cycle(&request) else {
            continue;
        };
        let task = rng.below(cycle.request.tasks.len()) as u8;
        let allowance = rng.pick(&[0, 1, 5, 30, 200]);
        let ends = planned_ends(subject(), &request, task, allowance);
        let four = counted(subject(), &request, task, allowance);
        assert_eq!(four, Ok(counts(&ends)), "{request:?} {task} {allowance}");
        let occur = counts(&ends).map(|count| count > 0);
        *kinds.entry(occur.to_vec()).or_default() += 1;
        seen += 1;
        planned += ends.len();
    }
    tell(format!("phases planned one by one: {planned}\n"));
    println!("which of the four answers occur: {kinds:?}");
    for place in 0..4 {
        let with = kinds.iter().filter(|(occur, _)| occur[place]);
        let with: u64 = with.map(|(_, count)| count).sum();
        assert!(with > REQUESTS / 20, "{place}: {kinds:?}");
    }
    assert!(kinds.len() >= 10, "{kinds:?}");
}

bus_tests::shams! {
    CountsPhaseT,
    CountsFromOne,
    LeavesOutTheFirst,
    LeavesOutTheLast,
    LeavesOutItsOwn,
    CountsItsOwnTwice,
    CountsFromItsOwnOn,
    CountsUpToTheDeadline,
    EveryOtherPhase,
    PeriodOfTheFirstTask,
    PhasesOfTheCycle,
    OneAllowanceForAll,
    AllowanceSharedOut,
    AllowsAnewForEachLength,
    AllowsOneMore,
    EndsWithTheLastTry,
    NoneAllowedIsNoLimit,
    AllowanceCutTo32Bits,
    NoLimit,
    TenForTwentyThree,
    TableForTwentyThree,
    TwentyThreeForTen,
    NineForTen,
    TenForNine,
    TwentyThreeBeforeNine,
    OldPlanningOrder,
    OldReleases,
    OldLengths,
    LengthsWithoutThePhase,
    ClipsWindows,
    ShiftsTheNextTask,
    ShiftsTheFirstTask,
    ShiftsAllOfItsPeriod,
    ShiftsItsPartnersToo,
    SetsTheDeadline,
    SetsTheLength,
    SetsTheLowByte,
    DropsPairs,
    DropsPairsOfTheTask,
    DropsSilence,
    AllLikeTheFirst,
    SecondHalfLikeTheFirst,
    TablesFromTheFirstOn,
    RefusesWithoutATable,
    RefusesAsPlanningDoes,
    SixteenFirst,
    SixteenBeforeSeven,
    SixteenBeforeEight,
    TwentyFourForNoTask,
    TakesTaskN,
    TakesTheTaskModulo16,
    CountsBeyondTheLimits,
    TakesBytesBehind,
    NinetyNineBehindTheRequest,
    NinetyNineLast,
    AsksForNineBytes,
    TakesSixBytes,
    WritesWhatFits,
    WritesBeforeRefusing,
    ClearsForSixteen,
    ClearsTheRestOfTheBuffer,
    HighByteFirst,
    CountsInAByte,
    StopsAt255,
    FourBytesEach,
    SwapsTheLastTwo,
    NineFirst,
    AnswersThePeriod,
    AnswersTheTables,
    AnswersTheLength,
}

/// Searches here end after so many tries, also where a lie knows no limit.
const LONGEST: u64 = 30_000;

/// What the search at these lengths comes to within so many tries, and the tries that it made.
fn searched(lengths: &[i64], cycle: &Cycle, allowance: u64) -> (i32, u64) {
    let mut effort = Effort::up_to(allowance.min(LONGEST));
    for f in lengths {
        match plan_of_length(cycle, *f, Direction::EarliestFirst, &mut effort) {
            Found::Plan(_) => return (0, effort.tries),
            Found::NoPlan => {}
            Found::TooHard => return (23, effort.tries),
        }
    }
    (if lengths.is_empty() { 9 } else { 10 }, effort.tries)
}

/// The lengths by 01's rule, which does not know the phase: 2f − gcd(f, T) ≤ D.
fn lengths_without_the_phase(cycle: &Cycle) -> Vec<i64> {
    let request = &cycle.request;
    let common = |f: i64, t: i64| (1..=f).rev().find(|g| f % g == 0 && t % g == 0);
    let holds = |f: i64, task: &Task| 2 * f - common(f, task.t).expect("1 is one") <= task.d;
    let passes = |f: i64, task: &Task| f >= request.slot(task) && holds(f, task);
    (1..=cycle.h)
        .rev()
        .filter(|f| cycle.h % f == 0 && cycle.h / f <= MOST_ROWS)
        .filter(|f| request.tasks.iter().all(|task| passes(*f, task)))
        .collect()
}

/// What is asked of a tool that refuses nothing.
struct Asked {
    cycle: Cycle,
    task: usize,
    allowance: u64,
}

impl Asked {
    fn itself(&self) -> Task {
        self.cycle.request.tasks[self.task]
    }

    /// The jobs of the cycle in the order in which the request has them with its own phase.
    fn in_old_order(&self, mut cycle: Cycle) -> Cycle {
        let place = |task, number| {
            let mut old = self.cycle.jobs.iter();
            old.position(|job| job.task == task && job.number == number)
        };
        cycle.jobs.sort_by_key(|job| place(job.task, job.number));
        cycle
    }
}

impl Sham {
    /// The phases that the lie looks at.
    fn looked_at(&self, asked: &Asked) -> Vec<i64> {
        let Task { t, d, p, .. } = asked.itself();
        match self.0 {
            Lie::CountsPhaseT => (0..=t).collect(),
            Lie::CountsFromOne => (1..=t).collect(),
            Lie::LeavesOutTheFirst => (1..t).collect(),
            Lie::LeavesOutTheLast => (0..t - 1).collect(),
            Lie::LeavesOutItsOwn => (0..t).filter(|phase| *phase != p).collect(),
            Lie::CountsItsOwnTwice => (0..t).chain([p]).collect(),
            Lie::CountsFromItsOwnOn => (p..t).collect(),
            Lie::CountsUpToTheDeadline => (0..d).collect(),
            Lie::EveryOtherPhase => (0..t).step_by(2).collect(),
            Lie::PeriodOfTheFirstTask => (0..asked.cycle.request.tasks[0].t).collect(),
            Lie::PhasesOfTheCycle => (0..asked.cycle.h).collect(),
            _ => (0..t).collect(),
        }
    }

    /// The tasks that the lie shifts.
    fn shifted(&self, asked: &Asked) -> Vec<usize> {
        let Request { tasks, pairs, .. } = &asked.cycle.request;
        let task = asked.task;
        let all = 0..tasks.len();
        match self.0 {
            Lie::ShiftsTheNextTask => vec![(task + 1) % tasks.len()],
            Lie::ShiftsTheFirstTask => vec![0],
            Lie::ShiftsAllOfItsPeriod => all.filter(|i| tasks[*i].t == tasks[task].t).collect(),
            Lie::ShiftsItsPartnersToo => {
                let partner =
                    |i: &usize| pairs.contains(&(*i, task)) || pairs.contains(&(task, *i));
                all.filter(|i| *i == task || partner(i)).collect()
            }
            _ => vec![task],
        }
    }

    /// The request that the lie plans for a phase, or none where its bytes could not be read.
    fn request(&self, asked: &Asked, phase: i64) -> Option<Request> {
        let mut request = asked.cycle.request.clone();
        for i in self.shifted(asked) {
            let task = &mut request.tasks[i];
            match self.0 {
                Lie::SetsTheDeadline => task.d = phase,
                Lie::SetsTheLength => task.c = phase,
                Lie::SetsTheLowByte => task.p = task.p / 256 * 256 + phase % 256,
                _ => task.p = phase,
            }
            if task.c < 1 || task.d < task.c {
                return None;
            }
        }
        match self.0 {
            Lie::DropsPairs => request.pairs.clear(),
            Lie::DropsPairsOfTheTask => request
                .pairs
                .retain(|(a, b)| *a != asked.task && *b != asked.task),
            Lie::DropsSilence => request.g = 0,
            _ => {}
        }
        Some(request)
    }

    /// The cycle in which the lie searches.
    fn cycle(&self, asked: &Asked, request: Request) -> Cycle {
        let mut cycle = cycle::of(request).expect("phases are not in the limits");
        match self.0 {
            Lie::OldPlanningOrder => return asked.in_old_order(cycle),
            Lie::OldReleases => cycle.jobs.clone_from(&asked.cycle.jobs),
            Lie::ClipsWindows => {
                let jobs = cycle.jobs.iter_mut();
                jobs.for_each(|job| job.due = job.due.min(cycle.h));
            }
            _ => {}
        }
        cycle
    }

    fn lengths(&self, asked: &Asked, cycle: &Cycle) -> Vec<i64> {
        match self.0 {
            Lie::OldLengths => plausible_lengths(&asked.cycle),
            Lie::LengthsWithoutThePhase => lengths_without_the_phase(cycle),
            _ => plausible_lengths(cycle),
        }
    }

    /// The tries that the lie allows for a phase, so many being left of those for all.
    fn allowed(&self, asked: &Asked, left: u64) -> u64 {
        let all = asked.allowance;
        match self.0 {
            Lie::OneAllowanceForAll => left,
            Lie::AllowanceSharedOut => all / asked.itself().t as u64,
            Lie::AllowsOneMore => all.saturating_add(1),
            Lie::NoneAllowedIsNoLimit if all == 0 => u64::MAX,
            Lie::AllowanceCutTo32Bits => all % (1 << 32),
            Lie::NoLimit | Lie::AllowsAnewForEachLength => u64::MAX,
            _ => all,
        }
    }

    /// What the lie takes planning with this phase to come to; some tries of those left are used.
    fn end(&self, asked: &Asked, phase: i64, left: &mut u64) -> i32 {
        let Some(request) = self.request(asked, phase) else {
            return 3;
        };
        let cycle = self.cycle(asked, request);
        let lengths = self.lengths(asked, &cycle);
        let (end, tries) = searched(&lengths, &cycle, self.allowed(asked, *left));
        *left -= tries.min(*left);
        let tests = || Tests::of(&cycle).take(LONGEST as usize).collect::<Vec<_>>();
        let long = |part: &[_]| part.len() as u64 > asked.allowance;
        match self.0 {
            Lie::EndsWithTheLastTry if tries > 0 && tries >= asked.allowance => 23,
            Lie::TwentyThreeBeforeNine if end == 9 && asked.allowance == 0 => 23,
            Lie::AllowsAnewForEachLength if tests().chunk_by(|a, b| a.f == b.f).any(long) => 23,
            Lie::TenForTwentyThree if end == 23 => 10,
            Lie::TableForTwentyThree if end == 23 => 0,
            Lie::TwentyThreeForTen if end == 10 => 23,
            Lie::NineForTen if end == 10 => 9,
            Lie::TenForNine if end == 9 => 10,
            _ => end,
        }
    }

    /// What the lie takes planning to come to, phase by phase.
    fn ends(&self, asked: &Asked) -> Vec<i32> {
        let mut left = asked.allowance;
        let phases = self.looked_at(asked);
        let ends = phases
            .iter()
            .map(|phase| self.end(asked, *phase, &mut left));
        let mut ends: Vec<i32> = ends.collect();
        let (first, half) = (ends.first().copied(), ends.len().div_ceil(2));
        match self.0 {
            Lie::AllLikeTheFirst => ends.fill(first.expect("phase 0 is one")),
            Lie::SecondHalfLikeTheFirst => {
                let again = ends[..ends.len() - half].to_vec();
                ends[half..].copy_from_slice(&again);
            }
            Lie::TablesFromTheFirstOn => {
                let table = ends.iter().position(|end| *end == 0);
                ends[table.unwrap_or(phases.len())..].fill(0);
            }
            _ => {}
        }
        ends
    }

    /// The bytes as the lie reads them.
    fn bytes<'a>(&self, bytes: &'a [u8]) -> &'a [u8] {
        let readable = |end: &usize| read(&bytes[..*end]).is_ok();
        match (0..bytes.len()).rev().find(readable) {
            Some(end) if self.0 == Lie::TakesBytesBehind && read(bytes) == Err(6) => &bytes[..end],
            _ => bytes,
        }
    }

    /// The task that the lie takes for the one named, of n.
    fn task(&self, task: u8, n: usize) -> usize {
        match self.0 {
            Lie::TakesTheTaskModulo16 => usize::from(task) % 16,
            Lie::TakesTaskN if usize::from(task) == n => n - 1,
            _ => usize::from(task),
        }
    }

    /// What is to be counted, or the number by which the lie refuses.
    fn asked(&self, bytes: &[u8], task: u8, allowance: u64) -> Result<Asked, i32> {
        let unknown = bytes.first().is_some_and(|n| task >= *n);
        let cycle = match (read_cycle(bytes), self.0) {
            (Err(_), Lie::SixteenFirst) if unknown => return Err(16),
            (Err(7), Lie::SixteenBeforeSeven) if unknown => return Err(16),
            (Err(8), Lie::SixteenBeforeEight) if unknown => return Err(16),
            (read, _) => read?,
        };
        let n = cycle.request.tasks.len();
        let task = self.task(task, n);
        match self.0 {
            Lie::TwentyFourForNoTask if task >= n => Err(24),
            _ if task >= n => Err(16),
            _ => Ok(Asked {
                cycle,
                task,
                allowance,
            }),
        }
    }

    /// What the lie answers to a request beyond the limits of a cycle.
    fn beyond(&self, bytes: &[u8], task: u8) -> Option<[u16; 4]> {
        let beyond = matches!(read_cycle(bytes), Err(7 | 8));
        let known = read(bytes).ok()?.tasks.get(usize::from(task))?.t;
        (beyond && self.0 == Lie::CountsBeyondTheLimits).then_some([0, 0, known as u16, 0])
    }

    /// Puts the counts into their buffer.
    fn put(&self, four: [u16; 4], bytes: &mut [u8]) {
        let [tables, nines, tens, ended] = four;
        let four = match self.0 {
            Lie::HighByteFirst => four.map(u16::swap_bytes),
            Lie::CountsInAByte => four.map(|count| count % 256),
            Lie::StopsAt255 => four.map(|count| count.min(255)),
            Lie::SwapsTheLastTwo => [tables, nines, ended, tens],
            Lie::NineFirst => [nines, tables, tens, ended],
            _ => four,
        };
        if self.0 == Lie::ClearsTheRestOfTheBuffer {
            bytes.fill(0);
        }
        let mut whole = [0; 16];
        put_counts(four, &mut whole);
        let mut length = COUNTS_LEN;
        if self.0 == Lie::FourBytesEach {
            let words = four.map(|count| u32::from(count).to_le_bytes());
            whole.copy_from_slice(&words.concat());
            length = whole.len();
        }
        let length = length.min(bytes.len());
        bytes[..length].copy_from_slice(&whole[..length]);
    }

    /// The answer that the lie gives with its counts, or the number by which it refuses all the same.
    fn answer(&self, asked: &Asked, ends: &[i32]) -> i32 {
        let [tables, ..] = counts(ends);
        let own = ends.get(asked.itself().p as usize);
        match self.0 {
            Lie::RefusesWithoutATable if tables == 0 => -10,
            Lie::RefusesAsPlanningDoes => -own.expect("it is one of them"),
            Lie::AnswersThePeriod => ends.len() as i32,
            Lie::AnswersTheTables => i32::from(tables),
            Lie::AnswersTheLength => COUNTS_LEN as i32,
            _ => 0,
        }
    }

    /// How many bytes the lie wants for the counts.
    fn wants(&self) -> usize {
        match self.0 {
            Lie::AsksForNineBytes => 9,
            Lie::TakesSixBytes => 6,
            _ => COUNTS_LEN,
        }
    }

    /// What the lie answers where it has fewer, if anything.
    fn without_room(&self, asked: &Result<Asked, i32>, bytes: &mut [u8]) -> i32 {
        match (self.0, asked) {
            (Lie::NinetyNineBehindTheRequest, Err(number)) if *number != 16 => -number,
            (Lie::NinetyNineLast, Err(number)) => -number,
            (Lie::WritesWhatFits, _) => {
                bytes.fill(0);
                -99
            }
            _ => -99,
        }
    }
}

impl Bus for Sham {
    fn phases(&self, request: &[u8], task: u8, allowance: u64, out: &mut [u8]) -> i32 {
        let asked = self.asked(self.bytes(request), task, allowance);
        if out.len() < self.wants() {
            return self.without_room(&asked, out);
        }
        match asked {
            Ok(asked) => {
                let ends = self.ends(&asked);
                let answer = self.answer(&asked, &ends);
                if answer >= 0 {
                    self.put(counts(&ends), out);
                }
                answer
            }
            Err(number) => {
                if let Some(four) = self.beyond(request, task) {
                    self.put(four, out);
                    return 0;
                }
                match self.0 {
                    Lie::WritesBeforeRefusing if number != 16 => self.put([0; 4], out),
                    Lie::ClearsForSixteen if number == 16 => self.put([0; 4], out),
                    _ => {}
                }
                -number
            }
        }
    }
}

#[test]
fn every_lie_is_caught() {
    let hunt = Hunt {
        round: phases::round,
        seed: 86,
        requests: 1_500,
    };
    hunt.catches(70, Sham);
}
