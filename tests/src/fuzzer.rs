//! Random and mutated calls, drawn from their rows: each argument by the function that its row names.

use std::collections::{BTreeMap, VecDeque};

use crate::bus::{count_bytes, DRAFT_LEN, ROWS, STATE_LEN, STATE_USED, TASKS};
use crate::bus::{CONTROL_AT, REGISTERS, STATUS_AT, TIMER_LEN, TIMER_USED};
use crate::bus::{HEATER_LEN, LINK_BYTES};
use crate::call::{Call, Outcome, Value};
use crate::comparison::MOST_TRIES;
use crate::generate;
use crate::random::Random;
use crate::reference::cut::Cut;
use crate::reference::draft::Draft;
use crate::reference::heater::Pair;
use crate::reference::one_off::Asked;
use crate::reference::phases::Shift;
use crate::reference::table::encode;
use crate::reference::{planned_within, read_cycle, tries_within};
use crate::rounds::phases;
use crate::rounds::planning::allowances;
use crate::rounds::{cutting, drafting, heater, joining, one_off, timeline};
use crate::row::Kind;

/// How many requests and how many tables are kept.
const KEPT: usize = 200;

/// Bytes seen lately, from which new ones are made.
type Kept = VecDeque<Vec<u8>>;

fn keep(kept: &mut Kept, bytes: Vec<u8>) {
    kept.push_back(bytes);
    if kept.len() > KEPT {
        kept.pop_front();
    }
}

fn some(rng: &mut Random, kept: &Kept) -> Vec<u8> {
    kept[rng.below(kept.len())].clone()
}

/// The front of one and the back of another.
fn crossed(rng: &mut Random, first: &[u8], second: &[u8]) -> Vec<u8> {
    let cut = rng.below(first.len() + 1);
    let from = rng.below(second.len() + 1);
    [&first[..cut], &second[from..]].concat()
}

fn mutated(rng: &mut Random, kept: &Kept) -> Vec<u8> {
    let mut bytes = some(rng, kept);
    match rng.below(20) {
        0..=4 => generate::damage(rng, &mut bytes),
        5 => {
            let other = some(rng, kept);
            bytes = crossed(rng, &bytes, &other);
        }
        6 => bytes = generate::noise(rng),
        7 => {
            let length = bytes.len() + rng.below(3_000);
            bytes.resize(length, rng.byte());
        }
        _ => {}
    }
    bytes
}

/// What has been drawn for the call that is being made. In most calls its parts fit together.
#[derive(Default)]
struct Drawn {
    fitting: bool,
    requests: Vec<Vec<u8>>,
    table: Vec<u8>,
    shift: Option<Shift>,
    asked: Option<Asked>,
    cut: Option<Cut>,
    draft: Option<Draft>,
    job: usize,
    pair: Option<Pair>,
}

pub struct Fuzzer {
    rng: Random,
    requests: Kept,
    tables: Kept,
    /// What calls left in their buffers, by the name of the argument.
    left: BTreeMap<&'static str, Kept>,
    drawn: Drawn,
}

/// The drawing of calls.
impl Fuzzer {
    pub fn new(seed: u64) -> Fuzzer {
        let mut fuzzer = Fuzzer {
            rng: Random::new(seed),
            requests: Kept::new(),
            tables: Kept::from([vec![2]]),
            left: BTreeMap::new(),
            drawn: Drawn::default(),
        };
        for _ in 0..KEPT {
            fuzzer.learn();
        }
        fuzzer
    }

    /// Keeps a new request, and its table if one is found; false if its search is too long for that.
    fn learn(&mut self) -> bool {
        let request = generate::valid_bytes(&mut self.rng);
        let (chosen, _) = planned_within(&request, MOST_TRIES);
        keep(&mut self.requests, request);
        let short = chosen != Err(23);
        if let Ok(table) = chosen {
            let mut disturbed = table.clone();
            generate::disturb(&mut self.rng, &mut disturbed);
            keep(&mut self.tables, encode(&table));
            keep(&mut self.tables, encode(&disturbed));
        }
        short
    }

    /// Now and then keeps a new request; then it is told whether its search was short.
    pub fn learn_at_times(&mut self) -> Option<bool> {
        self.rng.chance(2).then(|| self.learn())
    }

    /// Keeps what an accepted call left in the buffers that it may write, for calls to come.
    pub fn learn_outcome(&mut self, call: &Call, outcome: &Outcome) {
        if outcome.answer < 0 {
            return;
        }
        let written = call.row.arguments.iter();
        let written = written.filter(|argument| matches!(argument.kind, Kind::Write(..)));
        for (argument, bytes) in written.zip(&outcome.buffers) {
            keep(self.left.entry(argument.name).or_default(), bytes.clone());
        }
    }

    /// A call of any row.
    pub fn call(&mut self) -> Call {
        let row = &ROWS[self.rng.below(ROWS.len())];
        self.drawn = Drawn {
            fitting: self.rng.chance(60),
            ..Drawn::default()
        };
        let values = row.arguments.iter().map(|argument| match argument.kind {
            Kind::Number(_, drawn) => Value::Number(drawn(self)),
            Kind::Read(drawn) | Kind::Write(drawn, _) => Value::Bytes(drawn(self)),
        });
        let values = values.collect();
        Call { row, values }
    }
}

/// The drawing of arguments.
impl Fuzzer {
    /// A request; behind another one it is mostly one that can be joined with it.
    pub fn request(&mut self) -> Vec<u8> {
        let (rng, drawn) = (&mut self.rng, &mut self.drawn);
        let bytes = match drawn.requests.first() {
            Some(first) if drawn.fitting => joining::partner(rng, first),
            None if drawn.fitting => some(rng, &self.requests),
            _ => mutated(rng, &self.requests),
        };
        drawn.requests.push(bytes.clone());
        bytes
    }

    /// A table, mostly one of the request before it.
    pub fn table(&mut self) -> Vec<u8> {
        let request = self.drawn.requests.first().filter(|_| self.drawn.fitting);
        let cycle = request.and_then(|bytes| read_cycle(bytes).ok());
        let plan = cycle.and_then(|cycle| generate::some_plan(&mut self.rng, &cycle, MOST_TRIES));
        self.drawn.table = match plan {
            Some(mut table) => {
                if self.rng.chance(50) {
                    generate::disturb(&mut self.rng, &mut table);
                }
                encode(&table)
            }
            None => mutated(&mut self.rng, &self.tables),
        };
        self.drawn.table.clone()
    }

    /// Any bytes, mostly so many, now and then more, fewer or none.
    pub fn about(&mut self, usual: usize) -> Vec<u8> {
        let length = if self.rng.chance(90) {
            usual
        } else {
            self.rng.pick(&[usual + 1, 2 * usual, usual - 1, 3, 0])
        };
        self.rng.bytes(length)
    }

    /// What some call left in its argument of this name, now and then damaged; none if there was no
    /// such call, and now and then.
    pub fn left(&mut self, name: &str) -> Option<Vec<u8>> {
        let rng = &mut self.rng;
        let kept = self.left.get(name).filter(|_| rng.chance(70))?;
        let mut bytes = some(rng, kept);
        if rng.chance(10) {
            generate::damage(rng, &mut bytes);
        }
        Some(bytes)
    }

    /// A dispatcher's state: one that a call left, or one that some calls can have left.
    pub fn state(&mut self) -> Vec<u8> {
        if let Some(bytes) = self.left("state") {
            return bytes;
        }
        let mut bytes = self.about(STATE_LEN);
        self.make_state(&mut bytes);
        bytes
    }

    /// Mostly makes a state of the bytes that some calls can have left.
    fn make_state(&mut self, bytes: &mut [u8]) {
        let rng = &mut self.rng;
        if bytes.len() > STATE_USED && rng.chance(95) {
            bytes[1] = rng.pick(&[0, 0, 0, 0, 1, 255]);
            bytes[2] = rng.pick(&[0, 1]);
            if rng.chance(70) {
                bytes[0] = rng.pick(&[0, 0, 0, 0, 1, 1, 2, 3, 9, 200]);
            }
            for task in 0..TASKS {
                if rng.chance(20) {
                    bytes[count_bytes(task)].fill(255);
                }
            }
        }
    }

    /// Room for a file.
    pub fn room(&mut self) -> Vec<u8> {
        let length = match self.rng.below(4) {
            0 => self.rng.below(10),
            1 => self.rng.below(60),
            _ => self.rng.below(700),
        };
        self.rng.bytes(length)
    }

    /// A list of records, mostly about as long as the request's jobs need.
    pub fn records(&mut self) -> Vec<u8> {
        let length = timeline::some_length(&mut self.rng, &self.drawn.requests[0]);
        self.rng.bytes(length)
    }

    /// An allowance about the tries that the full search makes, or any; a small one for a long search.
    pub fn allowance(&mut self) -> u64 {
        match tries_within(&self.drawn.requests[0], MOST_TRIES) {
            Some(full) if self.rng.chance(80) => self.rng.pick(&allowances(full)),
            Some(_) => self.rng.draw(),
            None => self.rng.below(MOST_TRIES as usize) as u64,
        }
    }

    /// A task to be shifted and an allowance, drawn about the request.
    fn shift(&mut self) -> Shift {
        let drawn = &mut self.drawn;
        *drawn
            .shift
            .get_or_insert_with(|| phases::some_shift(&mut self.rng, &drawn.requests[0]))
    }

    pub fn task_to_shift(&mut self) -> u64 {
        self.shift().task.into()
    }

    pub fn allowance_of_phases(&mut self) -> u64 {
        self.shift().allowance
    }

    pub fn task(&mut self) -> u64 {
        self.rng.pick(&[0, 1, 2, 3, 15, 16, 255])
    }

    pub fn ticks(&mut self) -> u64 {
        let most = u64::from(u32::MAX);
        self.rng.pick(&[0, 1, 2, 3, 8, 100, 65_535, 65_536, most])
    }

    /// A cut, drawn about the request.
    fn cut(&mut self) -> Cut {
        let drawn = &mut self.drawn;
        *drawn
            .cut
            .get_or_insert_with(|| cutting::some_cut(&mut self.rng, &drawn.requests[0]))
    }

    pub fn task_to_cut(&mut self) -> u64 {
        self.cut().task.into()
    }

    pub fn first_piece(&mut self) -> u64 {
        self.cut().first.into()
    }

    /// A one-off transfer, drawn about the request and the table.
    fn asked(&mut self) -> Asked {
        let drawn = &mut self.drawn;
        *drawn
            .asked
            .get_or_insert_with(|| one_off::asked(&mut self.rng, &drawn.requests[0], &drawn.table))
    }

    pub fn length(&mut self) -> u64 {
        self.asked().length.into()
    }

    pub fn from(&mut self) -> u64 {
        self.asked().from.into()
    }

    pub fn until(&mut self) -> u64 {
        self.asked().until.into()
    }

    /// A draft, drawn about the request; now and then one that a call left.
    fn drafted(&mut self) -> Draft {
        if self.drawn.draft.is_none() {
            let left = self.rng.chance(5).then(|| self.left("draft")).flatten();
            let left = left.filter(|bytes| bytes.len() >= DRAFT_LEN);
            self.drawn.draft = Some(match left {
                Some(bytes) => Draft::read(&bytes),
                None => drafting::some_draft(&mut self.rng, &self.drawn.requests[0]),
            });
        }
        self.drawn.draft.clone().expect("it was drawn")
    }

    fn job(&mut self, lifted: bool) -> u64 {
        let draft = self.drafted();
        let job = drafting::some_job(&mut self.rng, &self.drawn.requests[0], &draft, lifted);
        self.drawn.job = job.into();
        job.into()
    }

    pub fn job_to_lift(&mut self) -> u64 {
        self.job(false)
    }

    pub fn job_to_put(&mut self) -> u64 {
        self.job(true)
    }

    pub fn frame_to_put(&mut self) -> u64 {
        let draft = self.drafted();
        let (request, job) = (&self.drawn.requests[0], self.drawn.job);
        drafting::some_frame(&mut self.rng, request, &draft, job).into()
    }

    /// The draft's bytes, now and then with others behind them or cut short.
    pub fn draft(&mut self) -> Vec<u8> {
        let mut bytes = self.drafted().bytes();
        let length = self.about(DRAFT_LEN).len();
        bytes.resize(length, self.rng.byte());
        bytes
    }

    /// A timer: one that a call left, or one that some calls can have left.
    pub fn timer(&mut self) -> Vec<u8> {
        if let Some(bytes) = self.left("timer") {
            return bytes;
        }
        let mut bytes = self.about(TIMER_LEN);
        self.make_state(&mut bytes);
        if bytes.len() >= TIMER_USED && self.rng.chance(95) {
            bytes[CONTROL_AT] %= 4;
            bytes[STATUS_AT] %= 8;
        }
        bytes
    }

    /// A heater: one that a call left, or a state with four bytes of a link behind it.
    pub fn heater(&mut self) -> Vec<u8> {
        if let Some(bytes) = self.left("heater") {
            return bytes;
        }
        let mut bytes = self.about(HEATER_LEN);
        let state = self.state();
        let both = state.len().min(bytes.len());
        bytes[..both].copy_from_slice(&state[..both]);
        if bytes.len() >= HEATER_LEN && self.rng.chance(95) {
            bytes[LINK_BYTES].fill_with(|| self.rng.pick(&[0, 1]));
        }
        bytes
    }

    /// The address of a register, now and then none.
    pub fn address(&mut self) -> u64 {
        match self.rng.below(8) {
            0 => self.rng.pick(&[8, 9, 64, 65, 128, 255]),
            1 => self.rng.below(REGISTERS) as u64,
            _ => self.rng.pick(&[0, 1]),
        }
    }

    /// A byte to be written to a register.
    pub fn value(&mut self) -> u64 {
        match self.rng.below(3) {
            0 => self.rng.byte().into(),
            _ => self.rng.below(8) as u64,
        }
    }

    /// A pair for command and reply, drawn about the request.
    fn pair(&mut self) -> Pair {
        let drawn = &mut self.drawn;
        *drawn
            .pair
            .get_or_insert_with(|| heater::some_pair(&mut self.rng, &drawn.requests[0]))
    }

    pub fn command_task(&mut self) -> u64 {
        self.pair().a.into()
    }

    pub fn reply_task(&mut self) -> u64 {
        self.pair().b.into()
    }

    pub fn lost(&mut self) -> u64 {
        heater::some_loss(&mut self.rng, 40).into()
    }
}
