//! Tools that only look right, and that the comparison or a flight must catch.

use bus_tests::bus::{count_bytes, Bus, STATE_USED, TASKS};
use bus_tests::random::Random;
use bus_tests::reference::cycle::{self, Cycle, Job};
use bus_tests::reference::model::{plausible_lengths, window};
use bus_tests::reference::request::{self, Task};
use bus_tests::reference::search::{plan_of_length, Direction, Effort, Found};
use bus_tests::reference::table::{decode, encode, of_plan};
use bus_tests::reference::{planned, read_cycle, Reference};
use bus_tests::rounds::planning;
use bus_tests::shams::Hunt;
use bus_tests::sheet;
use bus_tests::simulate::{fly_long, fly_many, Flight};

bus_tests::shams! {
    TenForAll,
    NineForTen,
    TenBeforeElevenFirst,
    OneTableForAll,
    ClipsWindowsAtH,
    StopsAtFirstPlausible,
    TakesSmallestLength,
    TakesLatestFrames,
    ForgetsPairs,
    LooksOneWayAtPairs,
    ComparesRowsOfPairs,
    ForgetsCarriedLoad,
    OverfillsRows,
    WritesBehindTheTable,
    WritesBeforeRefusing,
    AsksForOneByteMore,
    IgnoresBytesBehindRequest,
    PassesEveryTable,
    PassesNoTable,
    PassesOnlyTheChosenTable,
    IgnoresCarryBits,
    FourteenBeforeThirteen,
    RewritesTheChosenTable,
    NeverMovesTheRow,
    ServesEmptyFramesLater,
    ServesCarriedInFirstCycle,
    NeverClearsTheMark,
    LeavesUnusedPlaces,
    ClearsFreeBytes,
    RefusesNoMark,
    ReportsChangeNothing,
    CountsEveryReport,
    CountsTicksEqualToC,
    CountWraps,
    RaisesTheNextCount,
    RaisesAllCounts,
    OneLimitForAllCounts,
    ClearsCountsWithTheCycle,
    ReportJudgesTheCycle,
    TicksCutTo16Bits,
    FreshForgetsTheMark,
    ForgetsSilentTicks,
    SilenceInLengthsOnly,
    SilenceInCapacityOnly,
    NoSilenceAfterTheLast,
    SilenceBeforeTheDeadline,
    CheckForgetsSilentTicks,
    SixBeforeSeventeen,
    TakesAnyG,
    ZeroIsNoSection,
    ReportAllowsSilence,
    PlansWithoutThePhase,
    ChecksWithoutThePhase,
    PhaseModuloTheFrame,
    TwoFramesAtPhaseZero,
}

fn put(bytes: &[u8], out: &mut [u8]) -> i32 {
    if out.len() < bytes.len() {
        return -11;
    }
    out[..bytes.len()].copy_from_slice(bytes);
    bytes.len() as i32
}

/// The first plan among lengths in the order given.
fn first_plan(cycle: &Cycle, lengths: &[i64], direction: Direction) -> Option<Vec<u8>> {
    lengths.iter().find_map(|&f| {
        let mut effort = Effort::up_to(100_000);
        match plan_of_length(cycle, f, direction, &mut effort) {
            Found::Plan(frames) => Some(encode(&of_plan(cycle, f, &frames))),
            Found::NoPlan | Found::TooHard => None,
        }
    })
}

/// A search with one of its tests wrong.
struct WrongSearch<'a> {
    lie: Lie,
    cycle: &'a Cycle,
    f: i64,
    rows: i64,
    tries: u64,
}

impl WrongSearch<'_> {
    fn load(&self, placed: &[i64], k: i64) -> i64 {
        let counted = |other: i64| match self.lie {
            Lie::ForgetsCarriedLoad => other == k,
            _ => other % self.rows == k % self.rows,
        };
        let jobs = placed.iter().zip(&self.cycle.jobs);
        jobs.filter(|(other, _)| counted(**other))
            .map(|(_, job)| self.slot(job))
            .sum()
    }

    /// What the job is taken to need of its row.
    fn slot(&self, job: &Job) -> i64 {
        match self.lie {
            Lie::SilenceInLengthsOnly => job.slot - self.cycle.request.g,
            _ => job.slot,
        }
    }

    /// What a row is taken to hold.
    fn room(&self) -> i64 {
        match self.lie {
            Lie::NoSilenceAfterTheLast => self.f + self.cycle.request.g,
            _ => self.f,
        }
    }

    fn before(&self, first: i64, second: i64) -> bool {
        match self.lie {
            Lie::ComparesRowsOfPairs => first % self.rows <= second % self.rows,
            _ => first <= second,
        }
    }

    fn in_order(&self, placed: &[i64], k: i64) -> bool {
        let next = &self.cycle.jobs[placed.len()];
        self.cycle.request.pairs.iter().all(|&(a, b)| {
            placed.iter().zip(&self.cycle.jobs).all(|(&x, other)| {
                let pair = (other.task, next.task);
                other.number != next.number
                    || (pair != (a, b) || self.before(x, k))
                        && (self.lie == Lie::LooksOneWayAtPairs
                            || pair != (b, a)
                            || self.before(k, x))
            })
        })
    }

    fn place(&mut self, placed: &mut Vec<i64>) -> bool {
        let Some(job) = self.cycle.jobs.get(placed.len()).copied() else {
            return true;
        };
        for k in window(&job, self.f, self.rows) {
            self.tries += 1;
            let load = self.load(placed, k) + self.slot(&job);
            let fits = load <= self.room() && self.in_order(placed, k);
            if self.tries > 30_000 || !fits {
                continue;
            }
            placed.push(k);
            if self.place(placed) {
                return true;
            }
            placed.pop();
        }
        false
    }
}

fn wrong_plan(lie: Lie, cycle: &Cycle) -> Option<Vec<u8>> {
    plausible_lengths(cycle).into_iter().find_map(|f| {
        let rows = cycle.h / f;
        let mut search = WrongSearch {
            lie,
            cycle,
            f,
            rows,
            tries: 0,
        };
        let mut placed = Vec::new();
        search
            .place(&mut placed)
            .then(|| encode(&of_plan(cycle, f, &placed)))
    })
}

/// Plans a changed request, if it can be planned at all.
fn plan_changed(bytes: &[u8], out: &mut [u8], change: fn(&mut request::Request)) -> i32 {
    let Ok(mut read) = request::read(bytes) else {
        return Reference.plan_freely(bytes, out);
    };
    change(&mut read);
    match bus_tests::reference::tries_within(&request::write(&read), 100_000) {
        Some(_) => Reference.plan_freely(&request::write(&read), out),
        None => -10,
    }
}

/// Plans a request whose g is above 15.
fn plan_any_g(bytes: &[u8], out: &mut [u8]) -> Option<i32> {
    let [front @ .., 1, g] = bytes else {
        return None;
    };
    let mut read = request::read(front).ok()?;
    read.g = i64::from(*g);
    let cycle = cycle::of(read).ok()?;
    let lengths = plausible_lengths(&cycle);
    let table = first_plan(&cycle, &lengths, Direction::EarliestFirst);
    Some(table.map_or(-9, |bytes| put(&bytes, out)))
}

/// Whether some length is plausible once the silent ticks are left out.
fn plausible_without_silence(bytes: &[u8]) -> bool {
    let mut cycle = read_cycle(bytes).expect("9 comes after the cycle");
    cycle.request.g = 0;
    !plausible_lengths(&cycle).is_empty()
}

/// The largest number that divides both.
fn gcd(a: i64, b: i64) -> i64 {
    if b == 0 {
        a
    } else {
        gcd(b, a % b)
    }
}

/// Whether f is plausible with a wrong rule on the windows of a task.
fn plausible_by(lie: Lie, cycle: &Cycle, f: i64) -> bool {
    let rule = |task: &Task| {
        let common = gcd(f, task.t);
        let after = match lie {
            Lie::PhaseModuloTheFrame if task.p % f != 0 => task.p % f,
            Lie::TwoFramesAtPhaseZero => task.p % common,
            _ => common,
        };
        f >= cycle.request.slot(task) && 2 * f - after <= task.d
    };
    f >= 1 && cycle.h % f == 0 && cycle.h / f <= 256 && cycle.request.tasks.iter().all(rule)
}

/// Plans with a wrong rule on the windows.
fn plan_by(lie: Lie, request: &[u8], out: &mut [u8]) -> i32 {
    let Ok(cycle) = read_cycle(request) else {
        return Reference.plan_freely(request, out);
    };
    let lengths: Vec<i64> = (1..=cycle.h)
        .rev()
        .filter(|f| plausible_by(lie, &cycle, *f))
        .collect();
    match first_plan(&cycle, &lengths, Direction::EarliestFirst) {
        Some(bytes) => put(&bytes, out),
        None if lengths.is_empty() => -9,
        None => -10,
    }
}

/// Checks with a wrong rule on the windows.
fn check_by(lie: Lie, request: &[u8], table: &[u8]) -> i32 {
    let answer = Reference.check(request, table);
    match (read_cycle(request), decode(table)) {
        (Ok(cycle), Some(read)) if read.h == cycle.h => {
            match (plausible_by(lie, &cycle, read.f), answer) {
                (true, -13) => -14,
                (false, _) => -13,
                _ => answer,
            }
        }
        _ => answer,
    }
}

impl Sham {
    fn plan_from(&self, cycle: &Cycle, out: &mut [u8]) -> Option<i32> {
        if matches!(
            self.0,
            Lie::LooksOneWayAtPairs
                | Lie::ComparesRowsOfPairs
                | Lie::ForgetsCarriedLoad
                | Lie::SilenceInLengthsOnly
                | Lie::NoSilenceAfterTheLast
        ) {
            return wrong_plan(self.0, cycle).map(|bytes| put(&bytes, out));
        }
        let mut lengths = plausible_lengths(cycle);
        let direction = match self.0 {
            Lie::TakesLatestFrames => Direction::LatestFirst,
            _ => Direction::EarliestFirst,
        };
        match self.0 {
            Lie::StopsAtFirstPlausible => lengths.truncate(1),
            Lie::TakesSmallestLength => lengths.reverse(),
            _ => {}
        }
        first_plan(cycle, &lengths, direction).map(|bytes| put(&bytes, out))
    }

    fn plan_otherwise(&self, request: &[u8], out: &mut [u8]) -> i32 {
        match (read_cycle(request), planned(request)) {
            (Ok(cycle), Ok(_)) => self.plan_from(&cycle, out).unwrap_or(-10),
            _ => Reference.plan_freely(request, out),
        }
    }
}

impl Sham {
    /// The answer of planning, with every try allowed.
    fn answer(&self, request: &[u8], out: &mut [u8]) -> i32 {
        match self.0 {
            Lie::TenForAll => match Reference.plan_freely(request, &mut []) {
                -11 => -10,
                refusal => refusal,
            },
            Lie::NineForTen => match Reference.plan_freely(request, out) {
                -10 => -9,
                answer => answer,
            },
            Lie::TenBeforeElevenFirst => {
                let answer = Reference.plan_freely(request, out);
                if answer == -10 && out.len() < 9 {
                    return -11;
                }
                answer
            }
            Lie::OneTableForAll => match planned(request) {
                Ok(_) => Reference.plan_freely(&sheet::p1(), out),
                Err(number) => -number,
            },
            Lie::ClipsWindowsAtH => match planned(request) {
                Ok(table) if table.rows.iter().flatten().any(|entry| entry.carry) => -10,
                _ => Reference.plan_freely(request, out),
            },
            Lie::StopsAtFirstPlausible
            | Lie::TakesSmallestLength
            | Lie::TakesLatestFrames
            | Lie::LooksOneWayAtPairs
            | Lie::ComparesRowsOfPairs
            | Lie::ForgetsCarriedLoad
            | Lie::SilenceInLengthsOnly
            | Lie::NoSilenceAfterTheLast => self.plan_otherwise(request, out),
            Lie::PlansWithoutThePhase | Lie::PhaseModuloTheFrame | Lie::TwoFramesAtPhaseZero => {
                plan_by(self.0, request, out)
            }
            Lie::ForgetsPairs => plan_changed(request, out, |read| read.pairs.clear()),
            Lie::ForgetsSilentTicks => plan_changed(request, out, |read| read.g = 0),
            Lie::SilenceInCapacityOnly => match Reference.plan_freely(request, out) {
                -9 if plausible_without_silence(request) => -10,
                answer => answer,
            },
            Lie::SilenceBeforeTheDeadline => match request::read(request) {
                Ok(read) if read.tasks.iter().any(|task| read.slot(task) > task.d) => -3,
                _ => Reference.plan_freely(request, out),
            },
            Lie::OverfillsRows => plan_changed(request, out, |read| {
                if read.tasks[0].c > 1 {
                    read.tasks[0].c -= 1;
                }
            }),
            Lie::WritesBehindTheTable => {
                let length = Reference.plan_freely(request, out);
                if length > 0 && out.len() > length as usize {
                    out[length as usize] ^= 1;
                }
                length
            }
            Lie::WritesBeforeRefusing => {
                let answer = Reference.plan_freely(request, out);
                if answer == -11 && !out.is_empty() {
                    out[0] = 2;
                }
                answer
            }
            Lie::AsksForOneByteMore => match planned(request) {
                Ok(table) if out.len() == encode(&table).len() => -11,
                _ => Reference.plan_freely(request, out),
            },
            Lie::IgnoresBytesBehindRequest => match Reference.plan_freely(request, out) {
                -6 => Reference.plan_freely(&request[..request.len() - 1], out),
                answer => answer,
            },
            Lie::SixBeforeSeventeen => match Reference.plan_freely(request, out) {
                -17 if request::read(&request[..request.len() - 1]) == Err(17) => -6,
                answer => answer,
            },
            Lie::TakesAnyG => match Reference.plan_freely(request, out) {
                -17 => plan_any_g(request, out).unwrap_or(-17),
                answer => answer,
            },
            Lie::ZeroIsNoSection => match request.split_last() {
                Some((0, front)) if request::read(front).is_ok() => -6,
                _ => Reference.plan_freely(request, out),
            },
            _ => Reference.plan_freely(request, out),
        }
    }
}

impl Bus for Sham {
    /// The reference's count; and a search that it ends, the sham ends too.
    fn plan(&self, request: &[u8], allowance: u64, out: &mut [u8], tries: &mut [u8]) -> i32 {
        match Reference.plan(request, allowance, &mut out.to_vec(), tries) {
            answer @ (-23 | -99) => answer,
            _ => self.answer(request, out),
        }
    }

    fn check(&self, request: &[u8], table: &[u8]) -> i32 {
        let answer = Reference.check(request, table);
        match (self.0, answer) {
            (Lie::PassesEveryTable, -14) => 0,
            (Lie::PassesNoTable, 0) => -14,
            (Lie::PassesOnlyTheChosenTable, 0) => match planned(request) {
                Ok(chosen) if encode(&chosen) == table => 0,
                _ => -14,
            },
            (Lie::IgnoresCarryBits, -14) => {
                let mut read = decode(table).expect("14 comes after 12");
                for entry in read.rows.iter_mut().flatten() {
                    entry.carry = false;
                }
                Reference.check(request, &encode(&read))
            }
            (Lie::FourteenBeforeThirteen, -13) => -14,
            (
                Lie::ChecksWithoutThePhase | Lie::PhaseModuloTheFrame | Lie::TwoFramesAtPhaseZero,
                _,
            ) => check_by(self.0, request, table),
            (Lie::CheckForgetsSilentTicks, -14) => {
                let mut read = request::read(request).expect("14 comes after the request");
                read.g = 0;
                Reference.check(&request::write(&read), table)
            }
            _ => answer,
        }
    }

    fn rewrite(&self, request: &[u8], table: &[u8], out: &mut [u8]) -> i32 {
        let answer = Reference.rewrite(request, table, out);
        if self.0 == Lie::RewritesTheChosenTable && answer > 0 {
            return match planned(request) {
                Ok(chosen) => put(&encode(&chosen), out),
                Err(number) => -number,
            };
        }
        answer
    }

    fn fresh(&self, state: &mut [u8]) -> i32 {
        let answer = Reference.fresh(state);
        if self.0 == Lie::FreshForgetsTheMark && answer == 0 {
            state[2] = 0;
        }
        answer
    }

    fn next_frame(&self, table: &[u8], state: &mut [u8], entries: &mut [u8]) -> i32 {
        let old_state = state.to_vec();
        let old_entries = entries.to_vec();
        if self.0 == Lie::ServesCarriedInFirstCycle && state.len() >= 64 && state[2] == 1 {
            state[2] = 0;
            let answer = Reference.next_frame(table, state, entries);
            if answer < 0 || state[0..2] != [0, 0] {
                state[2] = 1;
            }
            return answer;
        }
        if self.0 == Lie::RefusesNoMark && state.len() >= 64 && state[2] > 1 {
            state[2] = 1;
            return Reference.next_frame(table, state, entries);
        }
        let answer = Reference.next_frame(table, state, entries);
        if answer < 0 {
            return answer;
        }
        match self.0 {
            Lie::NeverMovesTheRow => state[0..2].copy_from_slice(&old_state[0..2]),
            Lie::ServesEmptyFramesLater if old_state[2] == 0 => {
                entries[..32].fill(0);
                return 0;
            }
            Lie::NeverClearsTheMark => state[2] = old_state[2],
            Lie::LeavesUnusedPlaces => {
                let used = 2 * answer as usize;
                entries[used..].copy_from_slice(&old_entries[used..]);
            }
            Lie::ClearsFreeBytes => state[STATE_USED..].fill(0),
            Lie::ClearsCountsWithTheCycle if state[0..2] == [0, 0] => {
                state[3..STATE_USED].fill(0);
            }
            _ => {}
        }
        answer
    }

    fn report(&self, request: &[u8], task: u8, ticks: u32, state: &mut [u8]) -> i32 {
        let old_state = state.to_vec();
        let ticks = match self.0 {
            Lie::TicksCutTo16Bits => ticks % 65_536,
            Lie::CountsTicksEqualToC => ticks.saturating_add(1),
            Lie::CountsEveryReport => u32::MAX,
            _ => ticks,
        };
        if self.0 == Lie::ReportAllowsSilence {
            let silent = request::read(request).map_or(0, |read| read.g as u32);
            return Reference.report(request, task, ticks.saturating_sub(silent), state);
        }
        if self.0 == Lie::ReportJudgesTheCycle {
            if let Err(number) = read_cycle(request) {
                return -number;
            }
        }
        let answer = Reference.report(request, task, ticks, state);
        match self.0 {
            Lie::ReportsChangeNothing => state.copy_from_slice(&old_state),
            Lie::CountWraps if answer == 0 => {
                let own = count_bytes(usize::from(task));
                if old_state[own.clone()] == [255, 255] {
                    state[own].fill(0);
                }
            }
            Lie::RaisesTheNextCount if *state != old_state => {
                state.copy_from_slice(&old_state);
                raise(state, (usize::from(task) + 1) % TASKS);
            }
            Lie::RaisesAllCounts if *state != old_state => {
                let own = usize::from(task);
                for other in (0..TASKS).filter(|other| *other != own) {
                    raise(state, other);
                }
            }
            Lie::OneLimitForAllCounts if answer == 0 => {
                let mut all_counts = old_state[3..STATE_USED].chunks(2);
                if all_counts.any(|count| count == [255, 255]) {
                    state.copy_from_slice(&old_state);
                }
            }
            _ => {}
        }
        answer
    }
}

/// One more in the count of a task, up to 65,535.
fn raise(state: &mut [u8], task: usize) {
    let two = &mut state[count_bytes(task)];
    let count = u16::from_le_bytes([two[0], two[1]]).saturating_add(1);
    two.copy_from_slice(&count.to_le_bytes());
}

#[test]
fn the_comparison_catches_every_sham() {
    let hunt = Hunt {
        round: planning::round,
        seed: 21,
        requests: 6_000,
    };
    hunt.catches(55, Sham);
}

/// A flight needs no reference answer to see these.
#[test]
fn flights_catch_a_sham_dispatcher() {
    for lie in [
        Lie::NeverMovesTheRow,
        Lie::ServesEmptyFramesLater,
        Lie::ServesCarriedInFirstCycle,
        Lie::NeverClearsTheMark,
        Lie::LeavesUnusedPlaces,
        Lie::ReportsChangeNothing,
        Lie::CountsEveryReport,
        Lie::RaisesTheNextCount,
        Lie::RaisesAllCounts,
        Lie::ClearsCountsWithTheCycle,
        Lie::TicksCutTo16Bits,
        Lie::FreshForgetsTheMark,
    ] {
        assert!(fly_many(&Sham(lie), 22, 400).is_err(), "{lie:?}");
    }
}

/// A list long enough to see these.
#[test]
fn a_long_flight_catches_counts_without_a_limit_of_their_own() {
    for lie in [Lie::CountWraps, Lie::OneLimitForAllCounts] {
        assert!(
            fly_long(&Sham(lie), &sheet::p3(), 2, 32).is_err(),
            "{lie:?}"
        );
    }
}

/// Flights end also where no request gets a table.
#[test]
fn flights_end_without_a_table() {
    let fault = fly_many(&Sham(Lie::TenForAll), 24, 100).expect_err("nothing is flown");
    assert!(fault.starts_with("too few tables"), "{fault}");
}

/// A planner with this lie, and a check that passes every table.
struct Careless(Lie);

impl Bus for Careless {
    fn plan(&self, request: &[u8], allowance: u64, out: &mut [u8], tries: &mut [u8]) -> i32 {
        Sham(self.0).plan(request, allowance, out, tries)
    }

    fn check(&self, request: &[u8], table: &[u8]) -> i32 {
        Sham(Lie::PassesEveryTable).check(request, table)
    }
}

#[test]
fn flights_catch_a_table_that_breaks_a_pair() {
    let careless = Careless(Lie::ForgetsPairs);
    let fault = fly_many(&careless, 23, 2_000).expect_err("some pair is broken");
    assert!(fault.starts_with("pair "), "{fault}");
}

/// A row of 20 ticks in a frame of 20 ends in time only where each transfer starts at once; with
/// a silent tick after each the last one is late.
#[test]
fn flights_catch_a_row_without_silent_ticks() {
    let tasks = [(5, 20, 20, 0), (5, 20, 20, 0), (10, 20, 20, 0)];
    let table = crate::common::table(20, 20, "0.0 1.0 2.0");
    let careless = Careless(Lie::PassesEveryTable);
    for (g, late) in [(0, false), (1, true)] {
        let request = sheet::silent_request(&tasks, &[], g);
        let mut flight = Flight::start(&careless, &request, &table).expect("every table passes");
        let flown = flight.fly(&mut Random::new(25), 100);
        let fault = flown.err().unwrap_or_default();
        assert_eq!(fault.contains("after its due time"), late, "{fault}");
    }
}

/// Planners that leave too little silence in a row, or none behind its last transfer.
#[test]
fn flights_catch_a_frame_that_is_silent_too_late() {
    for lie in [
        Lie::ForgetsSilentTicks,
        Lie::SilenceInLengthsOnly,
        Lie::NoSilenceAfterTheLast,
    ] {
        assert!(fly_many(&Careless(lie), 26, 2_000).is_err(), "{lie:?}");
    }
    let careless = Careless(Lie::NoSilenceAfterTheLast);
    let fault = fly_many(&careless, 26, 2_000).expect_err("some row is too full");
    assert!(fault.contains("is silent until"), "{fault}");
}
