//! Lists of frames that a heater link serves, by the subject and by the reference; long lists judged by
//! R-13's words; and tools that only look right, which the comparison must catch.

use crate::common::{subject, tell, tell_left_out};
use bus_tests::bus::{
    Bus, ENTRIES_LEN, HEATER_LEN, HEATER_USED, LINK_BYTES, STATE_LEN, STATE_USED,
};
use bus_tests::comparison::{Seeded, Tally, MOST_TRIES};
use bus_tests::reference::heater::Pair;
use bus_tests::reference::request::read;
use bus_tests::reference::table::decode;
use bus_tests::reference::Reference;
use bus_tests::rounds::heater;
use bus_tests::shams::Hunt;
use bus_tests::simulate::heater::play_many;

const REQUESTS: u64 = if cfg!(feature = "linked") { 1_500 } else { 400 };
const LISTS: u64 = if cfg!(feature = "linked") { 2_000 } else { 300 };

fn judge(tally: &Tally) {
    tally.judge_variety(&["heater_fresh", "heater_serve"], REQUESTS / 200);
    let served = tally.count("heater_serve", 0);
    assert!(served * 3 > tally.calls, "few served frames: {served}");
}

#[test]
fn every_answer_and_byte_is_the_same() {
    let seeded = Seeded {
        round: heater::round,
        seeds: &[81, 82, 83, 84],
        requests: REQUESTS,
    };
    let tally = seeded.compare(subject(), judge);
    tell_left_out("heater links", tally.requests, tally.left_out, MOST_TRIES);
}

#[test]
fn long_lists_keep_the_law() {
    let done = play_many(subject(), 85, LISTS).unwrap_or_else(|fault| panic!("{fault}"));
    println!("{done:?}");
    tell(format!(
        "heater lists: {} lists of {} frames, {} toggles, {} commands answered\n",
        done.lists, done.frames, done.toggles, done.answered
    ));
    assert!(done.with_both * 20 > done.frames, "{done:?}");
    assert!(done.with_one * 20 > done.frames, "{done:?}");
    assert!(done.with_carry * 10 > done.lists, "{done:?}");
    assert!(done.answered > 2 * done.lists, "{done:?}");
    assert!(done.repeated * 10 > done.toggles, "{done:?}");
    assert!(done.stale * 10 > done.toggles, "{done:?}");
    assert!(done.refused > done.lists, "{done:?}");
}

bus_tests::shams! {
    FlipsOnAnyReply,
    FlipsWithEveryCommand,
    FlipsWhenToggled,
    NeverFlips,
    TogglesOnEveryCommand,
    ObeysWithTheReplyOnly,
    ForgetsWithTheCycle,
    ReplyBeforeItsCommand,
    ReplyShowsTheBitSent,
    AnsweredOnAnyReply,
    AnswersInTheSameFrameOnly,
    LostReplyArrives,
    LostCommandArrives,
    LossesSwapped,
    LossOfOneLosesBoth,
    LossOfTheUnservedBlocks,
    OtherBitsMeanSomething,
    LeftOutEntriesSend,
    KeepsToggled,
    KeepsAnswered,
    ClearsTheLinksFreeBytes,
    ClearsTheStatesFreeBytes,
    CountsTogglesAsOverruns,
    FreshBitsEqual,
    FreshBitsTurned,
    FreshLeavesFreeBytes,
    FreshLeavesWhatWasTold,
    FreshAsksForABit,
    ThirtyBeforeFourteen,
    ThirtyBeforeTheTable,
    FifteenBeforeThirty,
    FifteenAsNothingServed,
    TakesThePairTurned,
    TakesOneTaskTwice,
    TakesAnyTwoTasks,
    TakesTasksModulo16,
    TakesTheFirstPairOnly,
    TakesNoPairThatStandsTwice,
    PassesEveryTable,
    TakesAnyMark,
    TakesAnyBit,
    TakesAnythingTold,
    ShortEntriesLast,
    EntriesOfThePairOnly,
    LeavesUnusedPlaces,
    MovesOnARefusal,
    ForgetsWhatWasToldOnARefusal,
    WritesEntriesOnARefusal,
}

/// What is asked of a call, but for its buffers.
struct Asked<'a> {
    request: &'a [u8],
    table: &'a [u8],
    pair: Pair,
    lost: u8,
}

impl Sham {
    /// Whether the bytes are taken for a heater.
    fn is_heater(&self, heater: &[u8]) -> bool {
        if heater.len() < HEATER_LEN {
            return false;
        }
        let judged = match self.0 {
            Lie::TakesAnyBit => 0..0,
            Lie::TakesAnythingTold => 64..66,
            _ => LINK_BYTES,
        };
        let mark = heater[2] <= 1 || self.0 == Lie::TakesAnyMark;
        mark && heater[judged].iter().all(|byte| *byte <= 1)
    }

    /// The pair that the lie takes for the one asked, if it takes any.
    fn pair(&self, request: &[u8], asked: Pair) -> Option<Pair> {
        let read = read(request).expect("it was checked");
        let is_pair = |pair: Pair| read.pairs.contains(&(pair.a.into(), pair.b.into()));
        let (a, b) = (asked.a, asked.b);
        let taken = match self.0 {
            Lie::TakesThePairTurned if !is_pair(asked) => Pair { a: b, b: a },
            Lie::TakesTasksModulo16 => Pair {
                a: a % 16,
                b: b % 16,
            },
            _ => asked,
        };
        let count = read
            .pairs
            .iter()
            .filter(|pair| **pair == (a.into(), b.into()));
        let taken_anyway = match self.0 {
            Lie::TakesOneTaskTwice => a == b && usize::from(a) < read.tasks.len(),
            Lie::TakesAnyTwoTasks => a < b && usize::from(b) < read.tasks.len(),
            _ => false,
        };
        let taken_for_none = match self.0 {
            Lie::TakesTheFirstPairOnly => is_pair(asked) && read.pairs[0] != (a.into(), b.into()),
            Lie::TakesNoPairThatStandsTwice => count.count() > 1,
            _ => false,
        };
        ((is_pair(taken) || taken_anyway) && !taken_for_none).then_some(taken)
    }

    /// The number of the check that the lie gives, or 0.
    fn checked(&self, asked: &Asked) -> i32 {
        let number = -Reference.check(asked.request, asked.table);
        let before = match self.0 {
            Lie::ThirtyBeforeFourteen => number == 14,
            Lie::ThirtyBeforeTheTable => [12, 13, 14].contains(&number),
            _ => false,
        };
        if before && self.pair(asked.request, asked.pair).is_none() {
            return 30;
        }
        match self.0 {
            Lie::PassesEveryTable if number == 14 => 0,
            _ => number,
        }
    }

    /// Whether a command and a reply arrive, by the tasks that are served.
    fn arrivals(&self, pair: Pair, tasks: &[u8], lost: u8) -> (bool, bool) {
        let (a, b) = (tasks.contains(&pair.a), tasks.contains(&pair.b));
        let lost = match self.0 {
            Lie::LossesSwapped => [0, 2, 1, 3][usize::from(lost & 3)],
            Lie::LossOfOneLosesBoth if lost & 3 > 0 => 3,
            Lie::OtherBitsMeanSomething if lost > 3 => 0,
            _ => lost & 3,
        };
        let (command, reply) = (lost & 1 == 1, lost & 2 == 2);
        match self.0 {
            Lie::LostCommandArrives => (a, b && !reply),
            Lie::LostReplyArrives => (a && !command, b),
            Lie::LossOfTheUnservedBlocks => {
                let blocked = command && !a || reply && !b;
                (a && !command && !blocked, b && !reply && !blocked)
            }
            _ => (a && !command, b && !reply),
        }
    }

    /// The bits of the link after a frame, and what is told of it.
    fn exchanged(&self, before: [u8; 4], command: bool, reply: bool) -> [u8; 4] {
        let [master, old, ..] = before;
        let obeys = match self.0 {
            Lie::ObeysWithTheReplyOnly => command && reply,
            _ => command,
        };
        let obeyed = if obeys { master } else { old };
        let every = self.0 == Lie::TogglesOnEveryCommand;
        let toggled = command && (every || master != old);
        let shown = match self.0 {
            Lie::ReplyBeforeItsCommand => old,
            Lie::ReplyShowsTheBitSent => master,
            _ => obeyed,
        };
        let late = self.0 == Lie::AnswersInTheSameFrameOnly && !command;
        let answered = reply && shown == master && !late;
        let flips = match self.0 {
            Lie::FlipsOnAnyReply => reply,
            Lie::FlipsWithEveryCommand => command,
            Lie::FlipsWhenToggled => toggled,
            Lie::NeverFlips => false,
            _ => answered,
        };
        let toggled = toggled || self.0 == Lie::KeepsToggled && before[2] == 1;
        let answered = match self.0 {
            Lie::AnsweredOnAnyReply => reply,
            Lie::KeepsAnswered => answered || before[3] == 1,
            _ => answered,
        };
        let master = master ^ u8::from(flips);
        [master, obeyed, u8::from(toggled), u8::from(answered)]
    }

    /// The tasks with which something is sent.
    fn tasks(&self, asked: &Asked, row: usize, count: i32, entries: &[u8]) -> Vec<u8> {
        if self.0 == Lie::LeftOutEntriesSend {
            let table = decode(asked.table).expect("it was checked");
            return table.rows[row]
                .iter()
                .map(|entry| entry.task as u8)
                .collect();
        }
        let places = 0..count as usize;
        places.map(|place| entries[2 * place]).collect()
    }

    /// Serves a frame for a pair that was taken.
    fn served(&self, asked: &Asked, pair: Pair, heater: &mut [u8], entries: &mut [u8]) -> i32 {
        let row = usize::from(u16::from_le_bytes([heater[0], heater[1]]));
        let before: [u8; 4] = heater[LINK_BYTES].try_into().expect("four");
        let places = entries.to_vec();
        heater[2] = heater[2].min(1);
        let count = Reference.next_frame(asked.table, &mut heater[..STATE_LEN], entries);
        if count < 0 {
            let nothing = self.0 == Lie::FifteenAsNothingServed;
            return if nothing { 0 } else { count };
        }
        let tasks = self.tasks(asked, row, count, entries);
        let (command, reply) = self.arrivals(pair, &tasks, asked.lost);
        let mut after = self.exchanged(before, command, reply);
        if self.0 == Lie::ForgetsWithTheCycle && heater[..2] == [0, 0] {
            after[..2].copy_from_slice(&[0, 1]);
        }
        heater[LINK_BYTES].copy_from_slice(&after);
        match self.0 {
            Lie::ClearsTheLinksFreeBytes => heater[HEATER_USED..HEATER_LEN].fill(0),
            Lie::ClearsTheStatesFreeBytes => heater[STATE_USED..STATE_LEN].fill(0),
            Lie::CountsTogglesAsOverruns => {
                let own = 3 + 2 * usize::from(pair.a);
                heater[own] = heater[own].wrapping_add(after[2]);
            }
            Lie::EntriesOfThePairOnly => return only(pair, &tasks, entries),
            Lie::LeavesUnusedPlaces => {
                let used = 2 * tasks.len();
                entries[used..].copy_from_slice(&places[used..]);
            }
            _ => {}
        }
        count
    }

    fn refused(&self, number: i32, heater: &mut [u8], entries: &mut [u8]) -> i32 {
        match self.0 {
            Lie::MovesOnARefusal if number == 30 => heater[0] ^= 1,
            Lie::ForgetsWhatWasToldOnARefusal => heater[66..68].fill(0),
            Lie::WritesEntriesOnARefusal => entries[..ENTRIES_LEN].fill(0),
            _ => {}
        }
        -number
    }
}

/// Leaves the entries of the pair and no others.
fn only(pair: Pair, tasks: &[u8], entries: &mut [u8]) -> i32 {
    let own: Vec<u8> = (0..tasks.len())
        .filter(|place| [pair.a, pair.b].contains(&tasks[*place]))
        .flat_map(|place| [entries[2 * place], entries[2 * place + 1]])
        .collect();
    entries[..ENTRIES_LEN].fill(0);
    entries[..own.len()].copy_from_slice(&own);
    own.len() as i32 / 2
}

impl Bus for Sham {
    fn heater_fresh(&self, heater: &mut [u8]) -> i32 {
        let before = heater.to_vec();
        if self.0 == Lie::FreshAsksForABit && before.get(64).is_some_and(|byte| *byte > 1) {
            return -99;
        }
        let answer = Reference.heater_fresh(heater);
        if answer < 0 {
            return answer;
        }
        match self.0 {
            Lie::FreshBitsEqual => heater[65] = 0,
            Lie::FreshBitsTurned => heater[64..66].copy_from_slice(&[1, 0]),
            Lie::FreshLeavesFreeBytes => {
                heater[HEATER_USED..].copy_from_slice(&before[HEATER_USED..]);
            }
            Lie::FreshLeavesWhatWasTold => heater[66..68].copy_from_slice(&before[66..68]),
            _ => {}
        }
        answer
    }

    fn heater_serve(
        &self,
        request: &[u8],
        table: &[u8],
        a: u8,
        b: u8,
        lost: u8,
        heater: &mut [u8],
        entries: &mut [u8],
    ) -> i32 {
        let asked = Asked {
            request,
            table,
            pair: Pair { a, b },
            lost,
        };
        let short = entries.len() < ENTRIES_LEN;
        let later = self.0 == Lie::ShortEntriesLast;
        if !self.is_heater(heater) || short && !later {
            return -99;
        }
        let number = self.checked(&asked);
        if number > 0 {
            return if short {
                -number
            } else {
                self.refused(number, heater, entries)
            };
        }
        let (mut state, mut places) = (heater.to_vec(), [0; ENTRIES_LEN]);
        let next = Reference.next_frame(table, &mut state[..STATE_LEN], &mut places);
        if self.0 == Lie::FifteenBeforeThirty && next == -15 {
            return -15;
        }
        match self.pair(request, asked.pair) {
            None if short => -30,
            None => self.refused(30, heater, entries),
            Some(_) if short => -99,
            Some(pair) => self.served(&asked, pair, heater, entries),
        }
    }
}

#[test]
fn every_lie_is_caught() {
    let hunt = Hunt {
        round: heater::round,
        seed: 86,
        requests: 2_000,
    };
    hunt.catches(48, Sham);
}

/// The law needs no reference answer to see these.
#[test]
fn the_law_catches_wrong_links() {
    let lies = [
        Lie::FlipsOnAnyReply,
        Lie::FlipsWithEveryCommand,
        Lie::FlipsWhenToggled,
        Lie::NeverFlips,
        Lie::TogglesOnEveryCommand,
        Lie::ObeysWithTheReplyOnly,
        Lie::ForgetsWithTheCycle,
        Lie::ReplyBeforeItsCommand,
        Lie::ReplyShowsTheBitSent,
        Lie::AnsweredOnAnyReply,
        Lie::AnswersInTheSameFrameOnly,
        Lie::LostReplyArrives,
        Lie::LostCommandArrives,
        Lie::LossesSwapped,
        Lie::LossOfOneLosesBoth,
        Lie::LossOfTheUnservedBlocks,
        Lie::OtherBitsMeanSomething,
        Lie::LeftOutEntriesSend,
        Lie::KeepsToggled,
        Lie::KeepsAnswered,
        Lie::ClearsTheLinksFreeBytes,
        Lie::ClearsTheStatesFreeBytes,
        Lie::CountsTogglesAsOverruns,
        Lie::FreshBitsEqual,
        Lie::MovesOnARefusal,
        Lie::ForgetsWhatWasToldOnARefusal,
        Lie::EntriesOfThePairOnly,
        Lie::TakesThePairTurned,
    ];
    for lie in lies {
        let done = play_many(&Sham(lie), 87, 200);
        assert!(done.is_err(), "{lie:?} passed: {done:?}");
        println!("{lie:?}: {}", done.unwrap_err());
    }
    let honest = play_many(&Sham(Lie::None), 87, 200);
    assert!(honest.is_ok(), "{honest:?}");
}

/// Both ends turned are the same link: its bytes are others, and the law holds of it.
#[test]
fn the_law_lets_turned_bits_pass() {
    let turned = play_many(&Sham(Lie::FreshBitsTurned), 87, 200);
    assert!(turned.is_ok(), "{turned:?}");
}
