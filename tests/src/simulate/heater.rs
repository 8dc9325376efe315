//! Lists of frames that a heater link serves. What it tells is judged by R-13's words over what was
//! served and lost: no bit of either end is looked at. The frames are those of the plain dispatcher.

use std::ops::Range;

use super::PlainDispatcher;
use crate::bus::{Bus, ENTRIES_LEN, HEATER_LEN, HEATER_USED, STATE_LEN, TASKS};
use crate::call::{hex, Call, Outcome};
use crate::comparison::MOST_TRIES;
use crate::generate;
use crate::lending::run;
use crate::random::Random;
use crate::reference::heater::{Lost, Pair};
use crate::reference::table::{decode, encode, Entry, Table};
use crate::reference::{planned, read_cycle, tries_within};
use crate::rounds::heater::{call, some_loss};

const TOGGLED: usize = 66;
const ANSWERED: usize = 67;

/// A call that served a frame: whether a command arrived in it, whether a reply did, and what it told.
#[derive(Clone, Copy, Debug)]
pub struct Told {
    pub command: bool,
    pub reply: bool,
    pub toggled: bool,
    pub answered: bool,
}

/// What a list of calls told, and how often it told of a toggle and of an answer.
#[derive(Clone, Debug, Default)]
pub struct List {
    calls: Vec<Told>,
    pub toggles: usize,
    pub answered: usize,
}

impl List {
    fn push(&mut self, told: Told) {
        self.calls.push(told);
        self.toggles += usize::from(told.toggled);
        self.answered += usize::from(told.answered);
    }

    /// The calls before m whose command is a copy of the one that is current at m: those behind the
    /// last that was answered.
    fn copies(&self, m: usize) -> Range<usize> {
        let answered = self.calls[..m].iter().rposition(|told| told.answered);
        answered.map_or(0, |last| last + 1)..m
    }

    fn copy_arrived(&self, m: usize) -> bool {
        self.copies(m).any(|j| self.calls[j].command)
    }

    /// "The first reply to arrive after a copy of the current command has arrived" is that of call m. In
    /// one call the command comes first.
    fn first_reply(&self, m: usize) -> bool {
        let after = |j: usize| {
            let none_before = self.calls[j..m].iter().all(|told| !told.reply);
            self.calls[j].command && none_before
        };
        self.calls[m].reply && (self.copies(m).any(after) || self.calls[m].command)
    }

    /// The first copy of the current command to arrive is that of call m.
    fn first_copy(&self, m: usize) -> bool {
        self.calls[m].command && !self.copy_arrived(m)
    }

    /// The last call told the truth: its reply answers exactly if it is the first, its command toggles
    /// exactly if it is the first copy.
    fn judge_last(&self) -> Result<(), String> {
        let m = self.calls.len() - 1;
        let told = self.calls[m];
        if told.answered != self.first_reply(m) {
            return Err(format!("call {m}, answered: {told:?}"));
        }
        if told.toggled != self.first_copy(m) {
            return Err(format!("call {m}, toggled: {told:?}"));
        }
        Ok(())
    }

    /// "toggles done equal commands answered, or exceed them by one while the current command is
    /// unanswered".
    fn judge_counts(&self) -> Result<(), String> {
        let under_way = self.copy_arrived(self.calls.len());
        let (toggles, answered) = (self.toggles, self.answered);
        if toggles != answered + usize::from(under_way) {
            return Err(format!(
                "{toggles} toggles, {answered} answered, under way {under_way}"
            ));
        }
        Ok(())
    }
}

/// A list of calls that is being made.
#[derive(Clone)]
pub struct Link<'a> {
    bus: &'a dyn Bus,
    request: &'a [u8],
    table_bytes: &'a [u8],
    table: Table,
    pair: Pair,
    plain: PlainDispatcher,
    heater: Vec<u8>,
    pub list: List,
}

impl<'a> Link<'a> {
    /// From the fresh heater, with a table that the check accepts.
    pub fn start(
        bus: &'a dyn Bus,
        request: &'a [u8],
        table_bytes: &'a [u8],
        pair: Pair,
    ) -> Result<Link<'a>, String> {
        let table = decode(table_bytes).ok_or("the table has not the form")?;
        let fresh = run(bus, &Call::heater_fresh(&[0xEE; HEATER_LEN]))?;
        if fresh.answer != 0 || bus.check(request, table_bytes) != 0 {
            return Err("fresh heater, or table, refused".to_string());
        }
        Ok(Link {
            bus,
            request,
            table_bytes,
            table,
            pair,
            plain: PlainDispatcher {
                frames: 0,
                overruns: [0; TASKS],
            },
            heater: fresh.buffers[0].clone(),
            list: List::default(),
        })
    }

    fn described(&self) -> String {
        format!(
            "request [{}] table [{}] pair {:?} frames {}",
            hex(self.request),
            hex(self.table_bytes),
            self.pair,
            self.plain.frames
        )
    }

    fn call(&self, pair: Pair, lost: u8, room: usize) -> Call {
        let entries = vec![0xEE; room];
        let (request, table) = (self.request, self.table_bytes);
        call(request, table, pair, lost, &self.heater, &entries)
    }

    /// Serves the next frame and judges what was told of it.
    pub fn serve(&mut self, lost: u8) -> Result<Told, String> {
        let made = self.call(self.pair, lost, ENTRIES_LEN);
        let outcome = run(self.bus, &made)?;
        let served = self.plain.next_frame(&self.table);
        let judged = self.judge_frame(&served, &outcome);
        let judged = judged.and_then(|()| {
            self.told(&served, Lost::told(lost));
            self.list.judge_last()?;
            self.list.judge_counts()
        });
        judged.map_err(|fault| format!("{fault}: {}", self.described()))?;
        Ok(self.list.calls[self.list.calls.len() - 1])
    }

    /// The entries are those of the plain dispatcher, and so are row and mark. Counts and free bytes are
    /// kept; they are others in the next call.
    fn judge_frame(&mut self, served: &[Entry], outcome: &Outcome) -> Result<(), String> {
        let mut places = [0; ENTRIES_LEN];
        for (place, entry) in served.iter().enumerate() {
            places[2 * place] = entry.task as u8;
            places[2 * place + 1] = entry.job_byte();
        }
        if outcome.answer != served.len() as i32 || outcome.buffers[1] != places {
            return Err(format!("entries {:?}", outcome.buffers[1]));
        }
        let rows = self.table.rows.len() as i64;
        let [low, high] = ((self.plain.frames % rows) as u16).to_le_bytes();
        let state = [low, high, u8::from(self.plain.frames < rows)];
        let heater = &outcome.buffers[0];
        let kept = [3..STATE_LEN, HEATER_USED..HEATER_LEN];
        let changed = |part: &Range<usize>| heater[part.clone()] != self.heater[part.clone()];
        if heater[..3] != state || kept.iter().any(changed) {
            return Err(format!("heater [{}]", hex(heater)));
        }
        self.heater.clone_from(heater);
        for part in kept {
            self.heater[part].fill(self.plain.frames as u8);
        }
        Ok(())
    }

    /// Notes what the call told, beside what was served and lost.
    fn told(&mut self, served: &[Entry], lost: Lost) {
        let serves = |task: u8| served.iter().any(|entry| entry.task == i64::from(task));
        self.list.push(Told {
            command: serves(self.pair.a) && !lost.command,
            reply: serves(self.pair.b) && !lost.reply,
            toggled: self.heater[TOGGLED] == 1,
            answered: self.heater[ANSWERED] == 1,
        });
    }

    /// Calls that are refused and leave the heater as it was: a pair that is none, a table that is none,
    /// and a short buffer for the entries.
    pub fn refused(&self, lost: u8) -> Result<(), String> {
        let turned = Pair {
            a: self.pair.b,
            b: self.pair.a,
        };
        let (request, heater) = (self.request, &self.heater);
        let entries = [0xEE; ENTRIES_LEN];
        let calls = [
            (self.call(turned, lost, ENTRIES_LEN), -30),
            (call(request, &[2], self.pair, lost, heater, &entries), -12),
            (self.call(self.pair, lost, ENTRIES_LEN - 1), -99),
        ];
        for (made, number) in calls {
            let outcome = run(self.bus, &made)?;
            if outcome.answer != number || outcome.buffers[0] != *heater {
                return Err(format!("{outcome:?} for {number}: {}", made.describe()));
            }
        }
        Ok(())
    }

    /// Every pattern of losses over so many frames, the other bits of `lost` set in half of the calls;
    /// refused calls in between. The number of lists.
    pub fn every_pattern(&self, frames: usize) -> Result<usize, String> {
        if frames == 0 {
            return Ok(1);
        }
        let mut lists = 0;
        for lost in 0..4 {
            let mut next = self.clone();
            if lost == 0 {
                self.refused(frames as u8)?;
            }
            let other_bits = if frames % 2 == 0 { 0xFC } else { 0 };
            next.serve(lost | other_bits)?;
            lists += next.every_pattern(frames - 1)?;
        }
        Ok(lists)
    }
}

/// What a number of lists covered.
#[derive(Clone, Copy, Debug, Default)]
pub struct Lists {
    pub requests: u64,
    pub left_out: u64,
    pub lists: u64,
    pub frames: u64,
    /// Frames that serve command and reply, and those that serve one of them.
    pub with_both: u64,
    pub with_one: u64,
    /// Lists in which an entry of the pair is left out in the first cycle.
    pub with_carry: u64,
    pub toggles: u64,
    pub answered: u64,
    /// Commands that arrived again, and replies that arrived and answered nothing.
    pub repeated: u64,
    pub stale: u64,
    pub refused: u64,
}

impl Lists {
    fn note(&mut self, told: Told) {
        self.frames += 1;
        self.toggles += u64::from(told.toggled);
        self.answered += u64::from(told.answered);
        self.repeated += u64::from(told.command && !told.toggled);
        self.stale += u64::from(told.reply && !told.answered);
    }

    fn note_table(&mut self, table: &Table, pair: Pair, frames: i64) {
        let ends = [pair.a, pair.b].map(i64::from);
        for row in table.rows.iter().cycle().take(frames as usize) {
            let of_the_pair = row.iter().filter(|entry| ends.contains(&entry.task));
            let count = of_the_pair.count();
            self.with_both += u64::from(count == 2);
            self.with_one += u64::from(count == 1);
        }
        let carried = |entry: &Entry| entry.carry && ends.contains(&entry.task);
        self.with_carry += u64::from(table.rows.iter().flatten().any(carried));
    }
}

/// A long list with losses at some rate, and refused calls in between.
fn play(
    bus: &dyn Bus,
    rng: &mut Random,
    request: &[u8],
    table: &[u8],
    pair: Pair,
    done: &mut Lists,
) -> Result<(), String> {
    let mut link = Link::start(bus, request, table, pair)?;
    let rows = link.table.rows.len() as i64;
    let frames = rng.between(rows, 6 * rows + 40).min(400);
    let percent = rng.pick(&[0, 20, 40, 50, 60, 80]);
    for _ in 0..frames {
        if rng.chance(5) {
            link.refused(rng.byte())?;
            done.refused += 1;
        }
        done.note(link.serve(some_loss(rng, percent))?);
    }
    done.lists += 1;
    done.note_table(&link.table, pair, frames);
    Ok(())
}

/// So many requests are drawn for each list that is asked for, and no more.
const REQUESTS_FOR_A_LIST: u64 = 40;

/// Plays lists with random losses over the chosen table, and another one, of random requests with
/// pairs. It ends also where nothing is planned.
pub fn play_many(bus: &dyn Bus, seed: u64, lists: u64) -> Result<Lists, String> {
    let mut rng = Random::new(seed);
    let mut done = Lists::default();
    for _ in 0..lists * REQUESTS_FOR_A_LIST {
        if done.lists >= lists {
            return Ok(done);
        }
        let request = generate::valid_bytes(&mut rng);
        if tries_within(&request, MOST_TRIES).is_none() {
            done.left_out += 1;
            continue;
        }
        let Ok(cycle) = read_cycle(&request) else {
            continue;
        };
        if cycle.request.pairs.is_empty() {
            continue;
        }
        done.requests += 1;
        let chosen = planned(&request).ok();
        let other = generate::some_plan(&mut rng, &cycle, MOST_TRIES);
        for table in chosen.iter().chain(&other) {
            let (a, b) = rng.pick(&cycle.request.pairs);
            let pair = Pair {
                a: a as u8,
                b: b as u8,
            };
            play(bus, &mut rng, &request, &encode(table), pair, &mut done)?;
        }
    }
    Err(format!("too few tables: {done:?}"))
}
