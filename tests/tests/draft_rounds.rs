//! Seeded drafts and moves made by the subject and by the reference, and tools that only look right
//! when a job is moved by hand, which the comparison must catch.

use crate::common::{subject, tell_left_out};
use bus_tests::bus::{Bus, BAD_BUFFER, DRAFT_LEN};
use bus_tests::comparison::{Seeded, Tally, MOST_TRIES};
use bus_tests::reference::cycle::{Cycle, Job};
use bus_tests::reference::draft::{Draft, LIFTED};
use bus_tests::reference::model::{plausible, window};
use bus_tests::reference::table::{decode, encode, of_plan, Table};
use bus_tests::reference::{answer, check, planned, read_cycle, Reference};
use bus_tests::rounds::drafting;
use bus_tests::shams::Hunt;

const REQUESTS: u64 = if cfg!(feature = "linked") { 2_000 } else { 400 };
const CALLS: [&str; 4] = ["draft_start", "draft_lift", "draft_put", "draft_write"];

fn judge(tally: &Tally) {
    tally.judge_variety(&CALLS, REQUESTS / 200);
    for name in CALLS {
        assert!(tally.count(name, 0) > tally.requests / 2, "few {name}");
    }
    for number in [26, 27, 28] {
        let count = tally.count("draft_put", -number);
        assert!(count > tally.requests / 8, "few {number}");
    }
}

#[test]
fn every_answer_and_byte_is_the_same() {
    let seeded = Seeded {
        round: drafting::round,
        seeds: &[81, 82, 83, 84],
        requests: REQUESTS,
    };
    let tally = seeded.compare(subject(), judge);
    println!("{}", tally.summary());
    tell_left_out("drafts", tally.requests, tally.left_out, MOST_TRIES);
}

bus_tests::shams! {
    // A draft's bytes
    AsksForOneByteMore,
    NinetyNineBehindTheRequest,
    TwentySixForAShortDraft,
    ChangesBytesBehind,
    HighByteFirst,
    // Starting
    StartsWithoutCarry,
    StartsWithoutCarriedLoads,
    StartsWithoutSilence,
    StartsTheChosenPlan,
    LeavesUnusedPlaces,
    MarksUnusedPlacesLifted,
    ClearsTheDraftOnRefusal,
    // The request's own numbers
    LeavesOutSevenAndEight,
    TwentySixBeforeTheRequest,
    // What is asked of a draft
    LooksForADivisorOnly,
    TakesAnyLengthWithNothingPlaced,
    TakesFramesShorterThanATransfer,
    LooksAtNoLoads,
    LooksAtNoWindows,
    LooksAtNoCapacity,
    LooksAtNoOrder,
    SumsIn16Bits,
    CountsLiftedJobs,
    CountsCarriedJobsNowhere,
    CountsWithoutSilence,
    JudgesUnusedFrames,
    JudgesUnusedLoads,
    JudgesLiftedWindows,
    // Windows, rows and pairs
    ClipsWindows,
    WindowsIn16Bits,
    LeavesOneTickOfARow,
    FillsOneTickMore,
    RoomWithoutSilence,
    RoomOfRowK,
    PutsWithoutRoom,
    PutsOutOfOrder,
    AsksTheFirstOfAPairOnly,
    AsksTheSecondOfAPairOnly,
    ComparesWithLiftedJobs,
    ComparesRows,
    ComparesAnyNumbers,
    EqualFramesAreOutOfOrder,
    // Which number
    TwentySevenBeforeTwentySix,
    TwentyEightBeforeTwentySeven,
    TwentyEightBeforeTwentySix,
    TwentySevenForAFullRow,
    JobIn7Bits,
    SixteenForNoJob,
    // Moves
    LiftForgetsTheLoad,
    LiftsFromRowK,
    LiftClearsTheNextRow,
    LiftClearsItsRow,
    LiftsWhatIsLifted,
    LiftMarksZero,
    PutForgetsTheLoad,
    PutsIntoRowK,
    PutStoresTheRow,
    PutStoresTheLowByte,
    PutStoresTheLoadsLowByte,
    PutMovesWhatIsPlaced,
    PutsAtFrame65535,
    MendsTheLoads,
    ClearsUnusedFrames,
    ClearsUnusedLoads,
    RefusedPutKeepsTheLoad,
    RefusedPutKeepsTheFrame,
    RefusedLiftKeepsTheMark,
    // Writing
    WritesWithAJobLifted,
    WritesWithoutCarry,
    WritesTheChosenPlan,
    WritesWithWrongLoads,
    ElevenBeforeTwentySix,
    WritesBeforeEleven,
    ClearsBehindTheTable,
}

type Answer = Result<i32, i32>;

/// Whether the pairs name the two jobs: the one before the other.
fn linked(cycle: &Cycle, one: &Job, two: &Job) -> bool {
    let pairs = &cycle.request.pairs;
    one.number == two.number && pairs.contains(&(one.task, two.task))
}

/// The draft's rows; none if its frame length cuts the cycle into none.
fn rows_of(cycle: &Cycle, draft: &Draft) -> Option<i64> {
    let f = i64::from(draft.f);
    let cuts = f >= 1 && cycle.h % f == 0 && cycle.h / f <= 256;
    cuts.then(|| cycle.h / f)
}

/// What is asked of a draft.
impl Sham {
    fn is(&self, lie: Lie) -> bool {
        self.0 == lie
    }

    fn slot(&self, cycle: &Cycle, job: &Job) -> i64 {
        match self.0 {
            Lie::CountsWithoutSilence => job.slot - cycle.request.g,
            _ => job.slot,
        }
    }

    fn sum(&self, cycle: &Cycle, draft: &Draft, rows: i64, row: i64) -> i64 {
        let mut sum = 0;
        for (job, k) in cycle.jobs.iter().zip(&draft.frames) {
            if *k == LIFTED && !self.is(Lie::CountsLiftedJobs) {
                continue;
            }
            let k = i64::from(*k);
            let at = match self.0 {
                Lie::CountsCarriedJobsNowhere => k,
                _ => k % rows,
            };
            sum += if at == row { self.slot(cycle, job) } else { 0 };
        }
        match self.0 {
            Lie::SumsIn16Bits => sum % 65_536,
            _ => sum,
        }
    }

    fn in_window(&self, cycle: &Cycle, f: i64, job: &Job, k: i64) -> bool {
        let (begin, end) = match self.0 {
            Lie::WindowsIn16Bits => (k * f % 65_536, (k + 1) * f % 65_536),
            _ => (k * f, (k + 1) * f),
        };
        let clipped = self.is(Lie::ClipsWindows) && end > cycle.h;
        begin >= job.release && end <= job.due && !clipped
    }

    /// Of a frame length that cuts the cycle into rows.
    fn length_holds(&self, cycle: &Cycle, draft: &Draft, rows: i64) -> bool {
        let f = i64::from(draft.f);
        let holds_a_frame = |job: &Job| !window(job, f, rows).is_empty();
        let anyway = match self.0 {
            Lie::LooksForADivisorOnly => true,
            Lie::TakesAnyLengthWithNothingPlaced => draft.placed(cycle).is_empty(),
            Lie::TakesFramesShorterThanATransfer => cycle.jobs.iter().all(holds_a_frame),
            _ => false,
        };
        anyway || plausible(cycle, f)
    }

    fn in_order(&self, cycle: &Cycle, draft: &Draft) -> bool {
        let jobs = || cycle.jobs.iter().zip(&draft.frames);
        jobs().all(|(one, k)| {
            jobs().all(|(two, later)| {
                let placed = *k != LIFTED && *later != LIFTED;
                !placed || !linked(cycle, one, two) || k <= later
            })
        })
    }

    fn unused_hold(&self, cycle: &Cycle, draft: &Draft, rows: i64) -> bool {
        let all_zero = |words: &[u16]| words.iter().all(|word| *word == 0);
        match self.0 {
            Lie::JudgesUnusedFrames => all_zero(&draft.frames[cycle.jobs.len()..]),
            Lie::JudgesUnusedLoads => all_zero(&draft.loads[rows as usize..]),
            _ => true,
        }
    }

    fn windows_hold(&self, cycle: &Cycle, draft: &Draft) -> bool {
        let mut jobs = cycle.jobs.iter().zip(&draft.frames);
        jobs.all(|(job, k)| {
            let free = *k == LIFTED && !self.is(Lie::JudgesLiftedWindows);
            free || self.in_window(cycle, draft.f.into(), job, i64::from(*k))
        })
    }

    fn sound(&self, cycle: &Cycle, draft: &Draft) -> bool {
        let f = i64::from(draft.f);
        let Some(rows) = rows_of(cycle, draft) else {
            return false;
        };
        let any_load = matches!(self.0, Lie::LooksAtNoLoads | Lie::MendsTheLoads);
        let rows_hold = (0..rows).all(|row| {
            let sum = self.sum(cycle, draft, rows, row);
            let same = sum == i64::from(draft.loads[row as usize]);
            (same || any_load) && (sum <= f || self.is(Lie::LooksAtNoCapacity))
        });
        self.length_holds(cycle, draft, rows)
            && rows_hold
            && (self.is(Lie::LooksAtNoWindows) || self.windows_hold(cycle, draft))
            && (self.is(Lie::LooksAtNoOrder) || self.in_order(cycle, draft))
            && self.unused_hold(cycle, draft, rows)
    }

    /// The request as the lie reads it.
    fn cycle(&self, request: &[u8], draft: &Draft) -> Result<Cycle, i32> {
        match read_cycle(request) {
            Err(_) if self.is(Lie::TwentySixBeforeTheRequest) && draft.f == 0 => Err(26),
            Err(7 | 8) if self.is(Lie::LeavesOutSevenAndEight) => Err(26),
            read => read,
        }
    }
}

/// Moves.
impl Sham {
    /// Whether the job of a pair in frame k is out of order with the other one.
    fn crossed(&self, cycle: &Cycle, draft: &Draft, rows: i64, job: usize, k: u16) -> bool {
        let named = &cycle.jobs[job];
        let at = |k: u16| match self.0 {
            Lie::ComparesRows => i64::from(k) % rows,
            _ => i64::from(k),
        };
        let before = |one: u16, two: u16| match self.0 {
            Lie::EqualFramesAreOutOfOrder => at(one) < at(two),
            _ => at(one) <= at(two),
        };
        let pair = |one: &Job, two: &Job| match self.0 {
            Lie::ComparesAnyNumbers => cycle.request.pairs.contains(&(one.task, two.task)),
            _ => linked(cycle, one, two),
        };
        let mut others = cycle.jobs.iter().zip(&draft.frames).enumerate();
        others.any(|(place, (other, there))| {
            let counts = *there != LIFTED || self.is(Lie::ComparesWithLiftedJobs);
            let late = pair(named, other) && !before(k, *there);
            let early = pair(other, named) && !before(*there, k);
            let wrong = match self.0 {
                Lie::PutsOutOfOrder => false,
                Lie::AsksTheFirstOfAPairOnly => late,
                Lie::AsksTheSecondOfAPairOnly => early,
                _ => late || early,
            };
            place != job && counts && wrong
        })
    }

    fn over(&self, cycle: &Cycle, draft: &Draft, rows: i64, job: usize, k: u16) -> bool {
        let f = i64::from(draft.f);
        let row = match self.0 {
            Lie::RoomOfRowK => usize::from(k).min(255),
            _ => (i64::from(k) % rows) as usize,
        };
        let slot = self.slot(cycle, &cycle.jobs[job]);
        let sum = i64::from(draft.loads[row]) + slot;
        match self.0 {
            Lie::LeavesOneTickOfARow => sum >= f,
            Lie::FillsOneTickMore => sum > f + 1,
            Lie::RoomWithoutSilence => sum - cycle.request.g > f,
            Lie::PutsWithoutRoom => false,
            _ => sum > f,
        }
    }

    /// The first number that the put gets, in the order that the lie has them.
    fn put_number(&self, cycle: &Cycle, draft: &Draft, job: usize, k: u16) -> Result<(), i32> {
        if job >= cycle.jobs.len() {
            return Err(if self.is(Lie::SixteenForNoJob) {
                16
            } else {
                26
            });
        }
        let up = draft.frames[job] == LIFTED || self.is(Lie::PutMovesWhatIsPlaced);
        let bad = !self.sound(cycle, draft) || !up;
        let Some(rows) = rows_of(cycle, draft) else {
            return Err(26);
        };
        let outside = !self.in_window(cycle, draft.f.into(), &cycle.jobs[job], k.into());
        let over = self.over(cycle, draft, rows, job, k);
        let no_place = over || self.crossed(cycle, draft, rows, job, k);
        let order = match self.0 {
            Lie::TwentySevenBeforeTwentySix => [(outside, 27), (bad, 26), (no_place, 28)],
            Lie::TwentyEightBeforeTwentySeven => [(bad, 26), (no_place, 28), (outside, 27)],
            Lie::TwentyEightBeforeTwentySix => [(no_place, 28), (bad, 26), (outside, 27)],
            Lie::TwentySevenForAFullRow => [(bad, 26), (outside || over, 27), (no_place, 28)],
            _ => [(bad, 26), (outside, 27), (no_place, 28)],
        };
        let met = order.into_iter().find(|(met, _)| *met);
        met.map_or(Ok(()), |(_, number)| Err(number))
    }

    /// What some lies do to a draft with every move.
    fn tidied(&self, cycle: &Cycle, draft: &mut Draft, rows: i64) {
        match self.0 {
            Lie::ClearsUnusedFrames => draft.frames[cycle.jobs.len()..].fill(0),
            Lie::ClearsUnusedLoads => draft.loads[rows as usize..].fill(0),
            Lie::MendsTheLoads => *draft = draft.clone().summed_up(cycle),
            _ => {}
        }
    }

    fn lift(&self, cycle: &Cycle, draft: &mut Draft, job: usize) -> Answer {
        if job >= cycle.jobs.len() {
            return Err(if self.is(Lie::SixteenForNoJob) {
                16
            } else {
                26
            });
        }
        let (sound, k) = (self.sound(cycle, draft), draft.frames[job]);
        if self.is(Lie::LiftsWhatIsLifted) && sound && k == LIFTED {
            return Ok(0);
        }
        if !sound || k == LIFTED {
            if self.is(Lie::RefusedLiftKeepsTheMark) {
                draft.frames[job] = LIFTED;
            }
            return Err(26);
        }
        let rows = rows_of(cycle, draft).ok_or(26)?;
        let row = match self.0 {
            Lie::LiftsFromRowK => usize::from(k).min(255),
            _ => (i64::from(k) % rows) as usize,
        };
        let slot = self.slot(cycle, &cycle.jobs[job]) as u16;
        draft.frames[job] = match self.0 {
            Lie::LiftMarksZero => 0,
            _ => LIFTED,
        };
        match self.0 {
            Lie::LiftForgetsTheLoad => {}
            Lie::LiftClearsItsRow => draft.loads[row] = 0,
            _ => draft.loads[row] = draft.loads[row].wrapping_sub(slot),
        }
        if self.is(Lie::LiftClearsTheNextRow) && row + 1 < rows as usize {
            draft.loads[row + 1] = 0;
        }
        self.tidied(cycle, draft, rows);
        Ok(0)
    }

    fn put(&self, cycle: &Cycle, draft: &mut Draft, job: usize, k: u16) -> Answer {
        let known = job < cycle.jobs.len();
        if self.is(Lie::PutsAtFrame65535) && k == LIFTED && known && draft.frames[job] == LIFTED {
            return self.sound(cycle, draft).then_some(0).ok_or(26);
        }
        let rows = rows_of(cycle, draft).unwrap_or(1);
        let row = match self.0 {
            Lie::PutsIntoRowK => usize::from(k).min(255),
            _ => (i64::from(k) % rows) as usize,
        };
        let number = self.put_number(cycle, draft, job, k);
        let slot = cycle.jobs.get(job).map_or(0, |job| self.slot(cycle, job)) as u16;
        match number {
            Err(27) if self.is(Lie::RefusedPutKeepsTheFrame) => draft.frames[job] = k,
            Err(28) if self.is(Lie::RefusedPutKeepsTheLoad) => draft.loads[row] += slot,
            _ => {}
        }
        number?;
        let old = draft.frames[job];
        if old != LIFTED {
            let left = (i64::from(old) % rows) as usize;
            draft.loads[left] = draft.loads[left].wrapping_sub(slot);
        }
        draft.frames[job] = match self.0 {
            Lie::PutStoresTheRow => row as u16,
            Lie::PutStoresTheLowByte => k % 256,
            _ => k,
        };
        if !self.is(Lie::PutForgetsTheLoad) {
            draft.loads[row] = draft.loads[row].wrapping_add(slot);
        }
        if self.is(Lie::PutStoresTheLoadsLowByte) {
            draft.loads[row] %= 256;
        }
        self.tidied(cycle, draft, rows);
        Ok(0)
    }
}

/// Starting and writing.
impl Sham {
    fn start(&self, request: &[u8], table: &[u8], before: &Draft) -> Result<Draft, i32> {
        let number = Reference.check(request, table);
        if number < 0 {
            return Err(-number);
        }
        let cycle = read_cycle(request)?;
        let mut read = decode(table).ok_or(12)?;
        if let (Lie::StartsTheChosenPlan, Ok(chosen)) = (self.0, planned(request)) {
            read = chosen;
        }
        let frames = check::plan_in(&cycle, &read)?;
        let rows = cycle.h / read.f;
        let mut draft = match self.0 {
            Lie::LeavesUnusedPlaces => before.clone(),
            _ => Draft::unused(read.f as u16),
        };
        draft.f = read.f as u16;
        draft.loads[..rows as usize].fill(0);
        for (place, (job, k)) in cycle.jobs.iter().zip(frames).enumerate() {
            draft.frames[place] = match self.0 {
                Lie::StartsWithoutCarry => k % rows,
                _ => k,
            } as u16;
            let silent = cycle.request.g;
            draft.loads[(k % rows) as usize] += match self.0 {
                Lie::StartsWithoutCarriedLoads if k >= rows => 0,
                Lie::StartsWithoutSilence => job.slot - silent,
                _ => self.slot(&cycle, job),
            } as u16;
        }
        if self.is(Lie::MarksUnusedPlacesLifted) {
            draft.frames[cycle.jobs.len()..].fill(LIFTED);
        }
        Ok(draft)
    }

    fn table(&self, request: &[u8], draft: &Draft) -> Result<Table, i32> {
        let cycle = self.cycle(request, draft)?;
        let right = match self.0 {
            Lie::WritesWithWrongLoads if rows_of(&cycle, draft).is_some() => {
                self.sound(&cycle, &draft.clone().summed_up(&cycle))
            }
            _ => self.sound(&cycle, draft),
        };
        let rows = rows_of(&cycle, draft).filter(|_| right).ok_or(26)?;
        let mut placed = cycle.clone();
        let mut frames: Vec<i64> = draft.frames.iter().map(|k| i64::from(*k)).collect();
        frames.truncate(cycle.jobs.len());
        let lifted = i64::from(LIFTED);
        if self.is(Lie::WritesWithAJobLifted) {
            let mut up = frames.iter().map(|k| *k == lifted);
            placed.jobs.retain(|_| up.next() == Some(false));
            frames.retain(|k| *k != lifted);
        }
        if frames.contains(&lifted) {
            return Err(26);
        }
        if self.is(Lie::WritesWithoutCarry) {
            frames.iter_mut().for_each(|k| *k %= rows);
        }
        match planned(request) {
            Ok(chosen) if self.is(Lie::WritesTheChosenPlan) => Ok(chosen),
            _ => Ok(of_plan(&placed, draft.f.into(), &frames)),
        }
    }

    fn write(&self, request: &[u8], draft: &Draft, out: &mut [u8]) -> Answer {
        let made = self.table(request, draft);
        if made == Err(26) && self.is(Lie::ElevenBeforeTwentySix) && out.len() < 10 {
            return Err(11);
        }
        let bytes = encode(&made?);
        if out.len() < bytes.len() {
            if self.is(Lie::WritesBeforeEleven) {
                out.copy_from_slice(&bytes[..out.len()]);
            }
            return Err(11);
        }
        if self.is(Lie::ClearsBehindTheTable) {
            out.fill(0);
        }
        out[..bytes.len()].copy_from_slice(&bytes);
        Ok(bytes.len() as i32)
    }

    /// Refuses a short buffer; else the draft in it.
    fn lent(&self, request: &[u8], bytes: &[u8]) -> Result<Draft, i32> {
        let needed = DRAFT_LEN + usize::from(self.is(Lie::AsksForOneByteMore));
        if bytes.len() >= needed {
            return Ok(Draft::read(bytes));
        }
        match self.0 {
            Lie::NinetyNineBehindTheRequest => Err(read_cycle(request).err().unwrap_or(BAD_BUFFER)),
            Lie::TwentySixForAShortDraft => Err(26),
            _ => Err(BAD_BUFFER),
        }
    }

    fn put_back(&self, draft: &Draft, bytes: &mut [u8], done: Answer) -> i32 {
        let mut words = draft.bytes();
        if done.is_ok() && self.is(Lie::HighByteFirst) {
            words.swap(0, 1);
        }
        if done.is_ok() && self.is(Lie::ChangesBytesBehind) {
            bytes[DRAFT_LEN..].fill(0);
        }
        bytes[..DRAFT_LEN].copy_from_slice(&words);
        answer(done)
    }

    fn moved(
        &self,
        request: &[u8],
        bytes: &mut [u8],
        made: impl Fn(&Cycle, &mut Draft) -> Answer,
    ) -> i32 {
        let mut draft = match self.lent(request, bytes) {
            Ok(draft) => draft,
            Err(number) => return -number,
        };
        let done = match self.cycle(request, &draft) {
            Ok(cycle) => made(&cycle, &mut draft),
            Err(number) => Err(number),
        };
        self.put_back(&draft, bytes, done)
    }

    /// The job that the lie takes for the one named.
    fn taken(&self, job: u8) -> usize {
        match self.0 {
            Lie::JobIn7Bits => usize::from(job % 128),
            _ => usize::from(job),
        }
    }
}

impl Bus for Sham {
    fn draft_start(&self, request: &[u8], table: &[u8], draft: &mut [u8]) -> i32 {
        let before = match self.lent(request, draft) {
            Ok(before) => before,
            Err(number) => return -number,
        };
        match self.start(request, table, &before) {
            Ok(started) => self.put_back(&started, draft, Ok(0)),
            Err(number) if self.is(Lie::ClearsTheDraftOnRefusal) => {
                self.put_back(&Draft::unused(0), draft, Err(number))
            }
            Err(number) => -number,
        }
    }

    fn draft_lift(&self, request: &[u8], job: u8, draft: &mut [u8]) -> i32 {
        let job = self.taken(job);
        self.moved(request, draft, |cycle, draft| self.lift(cycle, draft, job))
    }

    fn draft_put(&self, request: &[u8], job: u8, frame: u16, draft: &mut [u8]) -> i32 {
        let job = self.taken(job);
        self.moved(request, draft, |cycle, draft| {
            self.put(cycle, draft, job, frame)
        })
    }

    fn draft_write(&self, request: &[u8], draft: &[u8], out: &mut [u8]) -> i32 {
        let lent = self.lent(request, draft);
        answer(lent.and_then(|draft| self.write(request, &draft, out)))
    }
}

#[test]
fn every_lie_is_caught() {
    let hunt = Hunt {
        round: drafting::round,
        seed: 85,
        requests: 3_000,
    };
    hunt.catches(74, Sham);
}
