//! Seeded lists of register calls made on the subject and on the reference, the registers beside what the
//! list alone says, flights by the timer, and tools that only look right, which must be caught.

use crate::common::{subject, tell_left_out};
use bus_tests::bus::{counts, Bus, BAD_BUFFER, ENTRIES_LEN, STATE_LEN, TIMER_LEN, TIMER_USED};
use bus_tests::bus::{CONTROL_AT, STATUS_AT};
use bus_tests::comparison::{Seeded, Tally, MOST_TRIES};
use bus_tests::reference::table::decode;
use bus_tests::reference::timer::{DUE, ENABLE, MISSED, OVERRUN, RUN};
use bus_tests::reference::{request, Reference};
use bus_tests::registers::told::run_many;
use bus_tests::rounds::timer;
use bus_tests::shams::Hunt;
use bus_tests::simulate::timer::fly_by_timer;

const REQUESTS: u64 = if cfg!(feature = "linked") { 2_000 } else { 300 };
const PROGRAMS: u64 = if cfg!(feature = "linked") { 4_000 } else { 400 };
const FLIGHTS: u64 = if cfg!(feature = "linked") { 1_000 } else { 100 };

fn judge(tally: &Tally) {
    let calls = [
        "timer_fresh",
        "timer_read",
        "timer_write",
        "timer_event",
        "timer_serve",
        "timer_report",
        "timer_line",
    ];
    tally.judge_variety(&calls, REQUESTS / 300);
    let served = tally.count("timer_serve", 0);
    assert!(served > 3 * tally.requests, "few servings");
}

#[test]
fn every_answer_and_byte_is_the_same() {
    let seeded = Seeded {
        round: timer::round,
        seeds: &[81, 82, 83, 84],
        requests: REQUESTS,
    };
    seeded.compare(subject(), judge);
}

/// For every list, cleared run and servings with bad tables among its calls: due, missed and overrun
/// exactly if some call of the list says so, the sum of the counts, the row, and the line.
#[test]
fn registers_tell_what_the_list_says() {
    for seed in [85, 86] {
        let covered = run_many(subject(), seed, PROGRAMS);
        let covered = covered.unwrap_or_else(|fault| panic!("{fault}"));
        println!("seed {seed}: {covered:?}");
        let often = [
            covered.ignored_events,
            covered.misses,
            covered.served,
            covered.refused_servings,
            covered.idle_servings,
            covered.idle_without_table,
            covered.overruns,
            covered.cleared_misses,
            covered.full_sums,
            covered.lines_on,
        ];
        assert!(often.iter().all(|count| *count > PROGRAMS / 4), "{often:?}");
        assert!(covered.overruns_at_most > PROGRAMS / 40, "{covered:?}");
    }
}

/// Run is set before the first event and stays set, each event is followed by its serving, and frame m
/// starts with its event at m·f: the flight keeps all its promises.
#[test]
fn flights_by_the_timer_keep_their_promises() {
    let flown = fly_by_timer(subject(), 87, FLIGHTS);
    let (done, driven) = flown.unwrap_or_else(|fault| panic!("{fault}"));
    println!("{done:?} {driven:?}");
    tell_left_out(
        "flights by the timer",
        done.requests,
        done.left_out,
        MOST_TRIES,
    );
    assert_eq!(driven.events, done.frames);
    assert!(driven.refused_servings * 10 > driven.events, "{driven:?}");
    assert!(driven.idle_servings * 10 > driven.events, "{driven:?}");
    assert!(driven.writes * 5 > driven.events, "{driven:?}");
    assert!(driven.reports * 2 > driven.events, "{driven:?}");
    assert!(done.with_carry * 10 > done.flights, "{done:?}");
    assert!(done.with_pairs * 10 > done.flights, "{done:?}");
}

bus_tests::shams! {
    // Writing.
    WriteSetsStatus,
    WriteAddsToStatus,
    WriteTurnsStatus,
    WriteOfZeroClears,
    WriteClearsDue,
    WriteSetsDue,
    WriteClearsBothMarks,
    RunClearedDropsDue,
    RunSetMakesDue,
    RunSetRestartsTheRow,
    RunSetClearsTheMarks,
    ControlKeepsUnnamedBits,
    ControlIsNeverCleared,
    RowTakesWrites,
    SumTakesWrites,
    IgnoredWritesAreRefused,
    // Addresses.
    TwentyNineOnReadingAlone,
    TwentyNineOnWritingAlone,
    AddressSevenRefused,
    AddressModuloEight,
    // Reading.
    RowInOneByte,
    SumIn16Bits,
    SumIsTheLargest,
    SumOfTheFirst,
    SumHighByteFirst,
    DueHiddenWithRunClear,
    // Events.
    EventWithRunClear,
    EventNeedsEnable,
    MissNotMarked,
    MissMovesTheRow,
    MissClearsDue,
    MissMarkedByEveryEvent,
    EventClearsFreeBytes,
    // Servings.
    ServedFrameLeftDue,
    ServingClearsMiss,
    ServingClearsOverrun,
    RefusedServingClearsDue,
    ServingLooksAtRun,
    IdleServingJudgesTheTable,
    IdleServingJudgesTheRow,
    IdleServingServes,
    IdleServingClearsEntries,
    IdleServingTakesAnyEntries,
    ServingClearsFreeBytes,
    // Reports.
    OverrunByChangeOfCount,
    OverrunAtC,
    OverrunOfNoTask,
    ReportMarksNothing,
    ReportNeedsRun,
    GoodReportClearsOverrun,
    // The line.
    LineWithoutEnable,
    LineWithoutDue,
    LineWithoutOverrun,
    LineWithoutMissed,
    LineNeedsRun,
    LineOfEnableAlone,
    // The bytes.
    TakesAnyControl,
    TakesAnyStatus,
    TakesAnyMark,
    TakesShortTimers,
    TwentyNineFirst,
    FreshKeepsFreeBytes,
    FreshRuns,
}

const LIES: usize = 63;

fn is_timer(timer: &[u8]) -> bool {
    Reference.timer_line(timer) >= 0
}

fn sum(timer: &[u8]) -> u32 {
    counts(timer).map(u32::from).iter().sum()
}

impl Sham {
    /// The timer with what the lie does not judge made good, if it is a timer then and was none.
    fn passed(&self, timer: &[u8]) -> Option<Vec<u8>> {
        let mut good = timer.to_vec();
        match self.0 {
            Lie::TakesAnyControl if timer.len() >= TIMER_LEN => good[CONTROL_AT] %= 4,
            Lie::TakesAnyStatus if timer.len() >= TIMER_LEN => good[STATUS_AT] %= 8,
            Lie::TakesAnyMark if timer.len() >= TIMER_LEN => good[2] %= 2,
            Lie::TakesShortTimers if timer.len() >= TIMER_USED => {
                good.resize(TIMER_LEN.max(timer.len()), 0)
            }
            _ => return None,
        }
        (!is_timer(timer) && is_timer(&good)).then_some(good)
    }

    /// The address that the lie takes for the one given, or a number in place of the answer.
    fn address(&self, address: u8, writing: bool) -> Result<u8, i32> {
        match self.0 {
            Lie::TwentyNineOnReadingAlone if writing && address > 7 => Err(0),
            Lie::TwentyNineOnWritingAlone if !writing && address > 7 => Err(0),
            Lie::AddressSevenRefused if address == 7 => Err(-29),
            Lie::IgnoredWritesAreRefused if writing && (2..8).contains(&address) => Err(-29),
            Lie::AddressModuloEight => Ok(address % 8),
            _ => Ok(address),
        }
    }

    /// What a write makes of the status byte.
    fn written_status(&self, old: u8, value: u8) -> u8 {
        let marks = value & (OVERRUN | MISSED);
        match self.0 {
            Lie::WriteSetsStatus => old & DUE | marks,
            Lie::WriteAddsToStatus => old | marks,
            Lie::WriteTurnsStatus => old ^ marks,
            Lie::WriteOfZeroClears => old & (value | DUE),
            Lie::WriteClearsDue => old & !value,
            Lie::WriteSetsDue => old & !marks | value & DUE,
            Lie::WriteClearsBothMarks if marks != 0 => old & DUE,
            _ => old & !marks,
        }
    }

    /// What a write to control does besides.
    fn run_written(&self, old: u8, value: u8, timer: &mut [u8]) {
        let (cleared, set) = (value & RUN == 0, old & RUN == 0 && value & RUN != 0);
        match self.0 {
            Lie::RunClearedDropsDue if cleared => timer[STATUS_AT] &= !DUE,
            Lie::RunSetMakesDue if set => timer[STATUS_AT] |= DUE,
            Lie::RunSetClearsTheMarks if set => timer[STATUS_AT] &= DUE,
            Lie::RunSetRestartsTheRow if set => timer[..3].copy_from_slice(&[0, 0, 1]),
            Lie::ControlKeepsUnnamedBits => timer[CONTROL_AT] = value,
            Lie::ControlIsNeverCleared => timer[CONTROL_AT] |= old,
            _ => {}
        }
    }

    /// What the two bytes of the sum read.
    fn sum_read(&self, timer: &[u8]) -> [u8; 2] {
        let counts = counts(timer).map(u32::from);
        let shown = match self.0 {
            Lie::SumIn16Bits => sum(timer) % 65_536,
            Lie::SumIsTheLargest => counts.into_iter().max().unwrap_or(0),
            Lie::SumOfTheFirst => counts[..15].iter().sum::<u32>().min(65_535),
            _ => sum(timer).min(65_535),
        };
        let two = (shown as u16).to_le_bytes();
        match self.0 {
            Lie::SumHighByteFirst => [two[1], two[0]],
            _ => two,
        }
    }

    /// What a serving with none due answers, if it is not 0.
    fn idle(&self, table: &[u8], timer: &[u8]) -> i32 {
        let row = usize::from(timer[0]) + 256 * usize::from(timer[1]);
        match (self.0, decode(table)) {
            (Lie::IdleServingJudgesTheTable, None) => -12,
            (Lie::IdleServingJudgesTheRow, Some(table)) if row >= table.rows.len() => -15,
            _ => 0,
        }
    }
}

impl Bus for Sham {
    fn timer_fresh(&self, timer: &mut [u8]) -> i32 {
        let old = timer.to_vec();
        let answer = Reference.timer_fresh(timer);
        match self.0 {
            Lie::FreshKeepsFreeBytes => timer[TIMER_USED.min(old.len())..]
                .copy_from_slice(&old[TIMER_USED.min(old.len())..]),
            Lie::FreshRuns if answer == 0 => timer[CONTROL_AT] = RUN,
            _ => {}
        }
        answer
    }

    fn timer_read(&self, address: u8, timer: &[u8]) -> i32 {
        if let Some(good) = self.passed(timer) {
            return Reference.timer_read(address, &good);
        }
        let answer = Reference.timer_read(address, timer);
        if answer == -BAD_BUFFER {
            let first = self.0 == Lie::TwentyNineFirst && address > 7;
            return if first { -29 } else { answer };
        }
        let address = match self.address(address, false) {
            Ok(address) => address,
            Err(answer) => return answer,
        };
        match (self.0, address) {
            (Lie::RowInOneByte, 3) => 0,
            (Lie::DueHiddenWithRunClear, 1) if timer[CONTROL_AT] & RUN == 0 => {
                answer & !i32::from(DUE)
            }
            (_, 4 | 5) => self.sum_read(timer)[usize::from(address - 4)].into(),
            _ => Reference.timer_read(address, timer),
        }
    }

    fn timer_write(&self, address: u8, value: u8, timer: &mut [u8]) -> i32 {
        if let Some(mut good) = self.passed(timer) {
            return Reference.timer_write(address, value, &mut good);
        }
        let old = timer.to_vec();
        let answer = Reference.timer_write(address, value, timer);
        if answer == -BAD_BUFFER {
            let first = self.0 == Lie::TwentyNineFirst && address > 7;
            return if first { -29 } else { answer };
        }
        let address = match self.address(address, true) {
            Ok(address) => address,
            Err(answer) => return answer,
        };
        match (self.0, address) {
            (_, 0) => {
                Reference.timer_write(0, value, timer);
                self.run_written(old[CONTROL_AT], value, timer);
                0
            }
            (_, 1) => {
                timer[STATUS_AT] = self.written_status(old[STATUS_AT], value);
                0
            }
            (Lie::RowTakesWrites, 2) => {
                timer[0] = value;
                0
            }
            (Lie::SumTakesWrites, 4) => {
                timer[3] = value;
                0
            }
            (Lie::AddressModuloEight, _) => 0,
            _ => answer,
        }
    }

    fn timer_event(&self, timer: &mut [u8]) -> i32 {
        if let Some(mut good) = self.passed(timer) {
            return Reference.timer_event(&mut good);
        }
        let old = timer.to_vec();
        let answer = Reference.timer_event(timer);
        if answer < 0 {
            return answer;
        }
        let (control, status) = (old[CONTROL_AT], old[STATUS_AT]);
        let missed = control & RUN != 0 && status & DUE != 0;
        let marked = if status & DUE != 0 { MISSED } else { DUE };
        match self.0 {
            Lie::EventWithRunClear => timer[STATUS_AT] = status | marked,
            Lie::EventNeedsEnable if control & ENABLE == 0 => timer[STATUS_AT] = status,
            Lie::MissNotMarked if missed => timer[STATUS_AT] = status,
            Lie::MissMovesTheRow if missed => timer[0] = timer[0].wrapping_add(1),
            Lie::MissClearsDue if missed => timer[STATUS_AT] &= !DUE,
            Lie::MissMarkedByEveryEvent if control & RUN != 0 => timer[STATUS_AT] |= MISSED,
            Lie::EventClearsFreeBytes => timer[TIMER_USED..TIMER_LEN].fill(0),
            _ => {}
        }
        answer
    }

    fn timer_serve(&self, table: &[u8], timer: &mut [u8], entries: &mut [u8]) -> i32 {
        if let Some(mut good) = self.passed(timer) {
            return Reference.timer_serve(table, &mut good, entries);
        }
        let idle = is_timer(timer) && timer[STATUS_AT] & DUE == 0;
        if idle && entries.len() < ENTRIES_LEN && self.0 == Lie::IdleServingTakesAnyEntries {
            return 0;
        }
        let (run, due) = (timer.get(CONTROL_AT), timer.get(STATUS_AT).copied());
        if self.0 == Lie::ServingLooksAtRun && is_timer(timer) && run == Some(&ENABLE) {
            return 0;
        }
        let answer = Reference.timer_serve(table, timer, entries);
        if answer == -BAD_BUFFER {
            return answer;
        }
        match (self.0, idle) {
            (Lie::IdleServingServes, true) => {
                Reference.next_frame(table, &mut timer[..STATE_LEN], entries)
            }
            (Lie::IdleServingClearsEntries, true) => {
                entries[..ENTRIES_LEN].fill(0);
                answer
            }
            (_, true) => self.idle(table, timer),
            (Lie::RefusedServingClearsDue, false) if answer < 0 => {
                timer[STATUS_AT] &= !DUE;
                answer
            }
            _ if answer < 0 => answer,
            _ => {
                match self.0 {
                    Lie::ServedFrameLeftDue => timer[STATUS_AT] = due.expect("it is a timer"),
                    Lie::ServingClearsMiss => timer[STATUS_AT] &= !MISSED,
                    Lie::ServingClearsOverrun => timer[STATUS_AT] &= !OVERRUN,
                    Lie::ServingClearsFreeBytes => timer[TIMER_USED..TIMER_LEN].fill(0),
                    _ => {}
                }
                answer
            }
        }
    }

    fn timer_report(&self, request: &[u8], task: u8, ticks: u32, timer: &mut [u8]) -> i32 {
        if let Some(mut good) = self.passed(timer) {
            return Reference.timer_report(request, task, ticks, &mut good);
        }
        let old = timer.to_vec();
        let answer = Reference.timer_report(request, task, ticks, timer);
        if answer == -16 && self.0 == Lie::OverrunOfNoTask {
            timer[STATUS_AT] |= OVERRUN;
        }
        if answer < 0 {
            return answer;
        }
        let c = request::read(request).expect("accepted").tasks[usize::from(task)].c;
        let changed = counts(&old) != counts(timer);
        match self.0 {
            Lie::OverrunByChangeOfCount if !changed => timer[STATUS_AT] = old[STATUS_AT],
            Lie::OverrunAtC if i64::from(ticks) == c => timer[STATUS_AT] |= OVERRUN,
            Lie::ReportMarksNothing => timer[STATUS_AT] = old[STATUS_AT],
            Lie::ReportNeedsRun if old[CONTROL_AT] & RUN == 0 => timer.copy_from_slice(&old),
            Lie::GoodReportClearsOverrun if i64::from(ticks) <= c => {
                timer[STATUS_AT] &= !OVERRUN;
            }
            _ => {}
        }
        answer
    }

    fn timer_line(&self, timer: &[u8]) -> i32 {
        if let Some(good) = self.passed(timer) {
            return Reference.timer_line(&good);
        }
        let answer = Reference.timer_line(timer);
        if answer < 0 {
            return answer;
        }
        let (control, status) = (timer[CONTROL_AT], timer[STATUS_AT]);
        let enabled = control & ENABLE != 0;
        let on = match self.0 {
            Lie::LineWithoutEnable => status != 0,
            Lie::LineWithoutDue => enabled && status & !DUE != 0,
            Lie::LineWithoutOverrun => enabled && status & !OVERRUN != 0,
            Lie::LineWithoutMissed => enabled && status & !MISSED != 0,
            Lie::LineNeedsRun => control == RUN | ENABLE && status != 0,
            Lie::LineOfEnableAlone => enabled,
            _ => answer == 1,
        };
        on.into()
    }
}

#[test]
fn every_lie_is_caught() {
    let hunt = Hunt {
        round: timer::round,
        seed: 88,
        requests: 2_000,
    };
    hunt.catches(LIES, Sham);
}

/// What the list alone says catches, without the reference, every lie but those about bytes that are no
/// timer or entries that are too short.
#[test]
fn the_list_alone_catches_lies() {
    use bus_tests::shams::Lies;
    let unseen = [
        Lie::IdleServingTakesAnyEntries,
        Lie::TakesAnyControl,
        Lie::TakesAnyStatus,
        Lie::TakesAnyMark,
        Lie::TakesShortTimers,
        Lie::TwentyNineFirst,
        // A row above 255 is in no list from a fresh timer.
        Lie::RowInOneByte,
    ];
    for lie in Lie::ALL {
        let told = run_many(&Sham(*lie), 89, 600);
        assert_eq!(told.is_ok(), unseen.contains(lie), "{lie:?}: {told:?}");
        println!("{lie:?}: {told:?}");
    }
    let honest = run_many(&Sham(Lie::None), 89, 600);
    assert!(honest.is_ok(), "{honest:?}");
}

/// The flights see by themselves that a frame is served twice, never or not in its place.
#[test]
fn flights_catch_lies_about_serving() {
    let lies = [
        Lie::ServedFrameLeftDue,
        Lie::RefusedServingClearsDue,
        Lie::IdleServingServes,
        Lie::IdleServingJudgesTheTable,
        Lie::EventNeedsEnable,
        Lie::MissMarkedByEveryEvent,
        Lie::WriteClearsDue,
        Lie::WriteSetsDue,
    ];
    for lie in lies {
        let flown = fly_by_timer(&Sham(lie), 90, FLIGHTS);
        assert!(flown.is_err(), "{lie:?} flew: {flown:?}");
        println!("{lie:?}: {flown:?}");
    }
    let honest = fly_by_timer(&Sham(Lie::None), 90, 50);
    assert!(honest.is_ok(), "{honest:?}");
}
