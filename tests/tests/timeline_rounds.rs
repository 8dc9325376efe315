//! Seeded timelines of the subject and of the reference, the records beside the table's own entries, and
//! tools that only look right, which the comparison must catch.

use crate::common::{subject, tell_left_out};
use bus_tests::bus::{Bus, RECORD_LEN};
use bus_tests::comparison::{Seeded, Tally, MOST_TRIES};
use bus_tests::generate;
use bus_tests::random::Random;
use bus_tests::reference::cycle::Cycle;
use bus_tests::reference::table::{decode, encode, Table};
use bus_tests::reference::timeline::{printed, records, Record};
use bus_tests::reference::{listing, planned, read_cycle, tries_within, Reference};
use bus_tests::rounds::timeline;
use bus_tests::shams::Hunt;

const REQUESTS: u64 = if cfg!(feature = "linked") { 2_000 } else { 300 };

fn judge(tally: &Tally) {
    tally.judge_variety(&["timeline"], REQUESTS / 100);
    assert!(
        tally.count("timeline", 0) > tally.calls / 8,
        "few timelines"
    );
}

#[test]
fn every_answer_is_the_same() {
    let seeded = Seeded {
        round: timeline::round,
        seeds: &[141, 142, 143, 144],
        requests: REQUESTS,
    };
    let tally = seeded.compare(subject(), judge);
    tell_left_out("timelines", tally.requests, tally.left_out, MOST_TRIES);
}

fn some_request(rng: &mut Random) -> (Vec<u8>, Cycle, Table) {
    loop {
        let bytes = match rng.below(4) {
            0 => generate::crowded_bytes(rng),
            _ => generate::valid_bytes(rng),
        };
        if tries_within(&bytes, MOST_TRIES).is_none() {
            continue;
        }
        let (Ok(cycle), Ok(chosen)) = (read_cycle(&bytes), planned(&bytes)) else {
            continue;
        };
        let table = generate::some_plan(rng, &cycle, MOST_TRIES).unwrap_or(chosen);
        return (bytes, cycle, table);
    }
}

/// The subject's records, read off the list.
fn told(request: &[u8], table: &[u8]) -> Vec<[i64; 5]> {
    let mut list = [0; 128 * RECORD_LEN];
    let count = subject().timeline(request, table, &mut list);
    let word = |low: u8, high: u8| i64::from(low) + 256 * i64::from(high);
    let read = |one: &[u8]| {
        let (release, due, frame) = (
            word(one[2], one[3]),
            word(one[4], one[5]),
            word(one[6], one[7]),
        );
        [i64::from(one[0]), i64::from(one[1]), release, due, frame]
    };
    let places = list.chunks(RECORD_LEN).map(read);
    places.take(count as usize).collect()
}

/// The records beside the table's own entries: each entry once, in its row or, carried, one cycle
/// later, in planning order, its frame whole in the window; and B is the rows' busy ticks.
#[test]
fn records_by_the_table_s_entries() {
    let mut rng = Random::new(145);
    let (mut carried, mut late, mut silent, mut many) = (0, 0, 0, 0);
    for _ in 0..REQUESTS {
        let (request, cycle, table) = some_request(&mut rng);
        let found = told(&request, &encode(&table));
        let tasks = &cycle.request.tasks;
        let mut entries = Vec::new();
        for (row, entry) in (0..)
            .zip(&table.rows)
            .flat_map(|(row, all)| all.iter().map(move |one| (row, one)))
        {
            let task = &tasks[entry.task as usize];
            let release = task.p + entry.job * task.t;
            let frame = row
                + if entry.carry {
                    table.rows.len() as i64
                } else {
                    0
                };
            assert!(frame * table.f >= release && (frame + 1) * table.f <= release + task.d);
            entries.push([entry.task, entry.job, release, release + task.d, frame]);
            carried += u64::from(entry.carry);
            late += u64::from(release + task.d > cycle.h);
        }
        entries.sort_by_key(|one| (one[2], one[0]));
        assert_eq!(found, entries);
        silent += u64::from(cycle.request.g > 0);
        many += u64::from(found.len() >= 100);
    }
    for count in [carried, late, silent, many] {
        assert!(count >= REQUESTS / 50, "{carried} {late} {silent} {many}");
    }
}

/// The last line of what is printed beside the second numbers of the listing's rows, added up.
#[test]
fn busy_ticks_of_all_rows() {
    let mut rng = Random::new(146);
    for _ in 0..REQUESTS {
        let (request, cycle, table) = some_request(&mut rng);
        let lines = listing::of_table(&cycle, &table);
        let busy = lines.lines().skip(1).map(|row| row.split(' ').nth(1));
        let busy: i64 = busy
            .map(|word| word.expect("busy").parse::<i64>().expect("ticks"))
            .sum();
        let text = printed(&request, &Ok(table));
        assert_eq!(text.lines().last(), Some(format!("busy {busy}").as_str()));
        assert_eq!(text.lines().count(), cycle.jobs.len() + 1);
    }
}

bus_tests::shams! {
    RowForFrame,
    DueClippedAtTheCycle,
    DueInTheCycle,
    DueAsDeadline,
    ReleaseOfTheNextJob,
    ReleaseWithoutThePhase,
    TableOrder,
    TaskOrder,
    DueOrder,
    LaterTaskFirst,
    LastRecordLeftOut,
    CountOneLess,
    CountsBytes,
    HighByteFirst,
    FrameInAByte,
    StartForFrame,
    CarryInTheJob,
    JobBeforeTask,
    DueBeforeRelease,
    ElevenFirst,
    ElevenBeforeFourteen,
    AsksForAPlaceMore,
    CountsAPartPlace,
    FillsWhatFits,
    TouchesOnElevenTheFirst,
    ClearsOnRefusal,
    ClearsBehind,
    PassesEveryTable,
    ChosenPlanForTheTable,
}

impl Sham {
    /// One job as the lie tells it.
    fn told(&self, cycle: &Cycle, table: &Table, mut one: Record) -> Record {
        let rows = table.rows.len() as i64;
        let task = &cycle.request.tasks[one.task];
        match self.0 {
            Lie::RowForFrame => one.frame %= rows,
            Lie::CarryInTheJob if one.frame >= rows => {
                one.job += 128;
                one.frame -= rows;
            }
            Lie::StartForFrame => one.frame *= table.f,
            Lie::FrameInAByte => one.frame %= 256,
            Lie::DueClippedAtTheCycle => one.due = one.due.min(cycle.h),
            Lie::DueInTheCycle if one.due > cycle.h => one.due -= cycle.h,
            Lie::DueAsDeadline => one.due = task.d,
            Lie::ReleaseOfTheNextJob => one.release += task.t,
            Lie::ReleaseWithoutThePhase => one.release -= task.p,
            Lie::DueBeforeRelease => (one.release, one.due) = (one.due, one.release),
            _ => {}
        }
        one
    }

    fn sorted(&self, rows: i64, all: &mut [Record]) {
        match self.0 {
            Lie::TableOrder => all.sort_by_key(|one| (one.frame % rows, one.task)),
            Lie::TaskOrder => all.sort_by_key(|one| (one.task, one.job)),
            Lie::DueOrder => all.sort_by_key(|one| (one.due, one.task)),
            Lie::LaterTaskFirst => all.sort_by_key(|one| (one.release, 16 - one.task)),
            _ => {}
        }
    }

    fn bytes(&self, one: &Record) -> [u8; RECORD_LEN] {
        let mut bytes = one.bytes();
        match self.0 {
            Lie::HighByteFirst => (1..4).for_each(|word| bytes.swap(2 * word, 2 * word + 1)),
            Lie::JobBeforeTask => bytes.swap(0, 1),
            _ => {}
        }
        bytes
    }

    /// The number by which the lie refuses, if it does, and what it makes of the list then.
    fn refusal(&self, number: i32, request: &[u8], list: &mut [u8]) -> i32 {
        let needed = read_cycle(request).map_or(0, |cycle| cycle.jobs.len());
        let short = list.len() / RECORD_LEN < needed;
        match self.0 {
            Lie::ElevenFirst if list.len() < RECORD_LEN => 11,
            Lie::ElevenBeforeFourteen if number == 14 && short => 11,
            Lie::ClearsOnRefusal => {
                list.fill(0);
                number
            }
            _ => number,
        }
    }

    /// Whether the list has too few places for so many records.
    fn is_short(&self, list: &[u8], count: usize) -> bool {
        match self.0 {
            Lie::AsksForAPlaceMore => list.len() / RECORD_LEN <= count,
            Lie::CountsAPartPlace => list.len().div_ceil(RECORD_LEN) < count,
            Lie::FillsWhatFits => false,
            _ => list.len() / RECORD_LEN < count,
        }
    }

    /// The table by which the lie tells the frames.
    fn table(&self, request: &[u8], table: &[u8]) -> Vec<u8> {
        match (self.0, planned(request)) {
            (Lie::ChosenPlanForTheTable, Ok(chosen)) => encode(&chosen),
            _ => table.to_vec(),
        }
    }

    /// Puts the records into the list, as many as the lie has room for.
    fn put(&self, all: &[Record], list: &mut [u8]) {
        if self.0 == Lie::ClearsBehind {
            list.fill(0);
        }
        let left_out = usize::from(self.0 == Lie::LastRecordLeftOut);
        for (place, one) in all[..all.len() - left_out].iter().enumerate() {
            let end = list.len().min(RECORD_LEN * (place + 1));
            let begin = end.min(RECORD_LEN * place);
            list[begin..end].copy_from_slice(&self.bytes(one)[..end - begin]);
        }
    }

    fn answer(&self, count: usize) -> i32 {
        match self.0 {
            Lie::CountOneLess => count as i32 - 1,
            Lie::CountsBytes => (RECORD_LEN * count) as i32,
            _ => count as i32,
        }
    }
}

impl Bus for Sham {
    fn timeline(&self, request: &[u8], table: &[u8], list: &mut [u8]) -> i32 {
        let number = -Reference.check(request, table);
        if number == 14 && self.0 == Lie::PassesEveryTable {
            return read_cycle(request).map_or(0, |cycle| cycle.jobs.len() as i32);
        }
        if number > 0 {
            return -self.refusal(number, request, list);
        }
        let table = self.table(request, table);
        let cycle = read_cycle(request).expect("it was checked");
        let read = decode(&table).expect("it was checked");
        let mut all = records(request, &table).expect("it was checked");
        self.sorted(read.rows.len() as i64, &mut all);
        let all: Vec<Record> = all
            .iter()
            .map(|one| self.told(&cycle, &read, *one))
            .collect();
        if self.is_short(list, all.len()) {
            if self.0 == Lie::TouchesOnElevenTheFirst && list.len() >= RECORD_LEN {
                self.put(&all[..1], list);
            }
            return -self.refusal(11, request, list);
        }
        self.put(&all, list);
        self.answer(all.len())
    }
}

#[test]
fn every_lie_is_caught() {
    let hunt = Hunt {
        round: timeline::round,
        seed: 147,
        requests: 2_000,
    };
    hunt.catches(29, Sham);
}
