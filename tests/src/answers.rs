//! Answers of the reference as text, stored for the tests of other languages: for each request what
//! is read from it, its plan, the check of some tables, and a flight with reports; or the frames for
//! one-off transfers; or its plan with several numbers of tries allowed; or its plan however long the
//! search would be.
//!
//! A line is a question with its answer behind it, words apart by single blanks, bytes in
//! hexadecimal, no bytes as `-`. Stored text can be answered anew, whatever its answers were.

use crate::bus::{Bus, ENTRIES_LEN, STATE_LEN, TRIES_LEN};
use crate::comparison::MOST_TRIES;
use crate::generate;
use crate::given_tries;
use crate::left_open;
use crate::random::Random;
use crate::reference::one_off::Asked;
use crate::reference::request::{self, Request};
use crate::reference::table::encode;
use crate::reference::{decided, planned, tries_within, Reference};
use crate::rounds::one_off;
use crate::rounds::planning::allowances;
use crate::sheet;

const TABLES_OF_A_REQUEST: usize = 4;
const CALLS_OF_A_FLIGHT: usize = 24;
const ASKED_OF_A_PLAN: usize = 8;
const LONGEST_TABLE: usize = 519;

fn in_hex(bytes: &[u8]) -> String {
    if bytes.is_empty() {
        return "-".to_string();
    }
    bytes.iter().map(|byte| format!("{byte:02x}")).collect()
}

pub fn from_hex(word: &str) -> Vec<u8> {
    if word == "-" {
        return Vec::new();
    }
    (0..word.len())
        .step_by(2)
        .map(|at| u8::from_str_radix(&word[at..at + 2], 16).expect("two digits"))
        .collect()
}

/// What was read: `C,T,D,P` for each task, `a,b` for each pair, and g; or the number.
fn fields(read: &Result<Request, i32>) -> String {
    let request = match read {
        Ok(request) => request,
        Err(number) => return format!("refused {number}"),
    };
    let tasks = request
        .tasks
        .iter()
        .map(|task| format!("task {},{},{},{} ", task.c, task.t, task.d, task.p));
    let pairs = request.pairs.iter().map(|(a, b)| format!("pair {a},{b} "));
    let all: String = tasks.chain(pairs).collect();
    format!("{all}silent {}", request.g)
}

/// The answer, the count of tries and the table, with so many tries allowed.
fn within(request: &[u8], allowance: u64) -> String {
    let (mut table, mut tries) = (vec![0; LONGEST_TABLE], [0; TRIES_LEN]);
    let answer = Reference.plan(request, allowance, &mut table, &mut tries);
    table.truncate(answer.max(0) as usize);
    let count = u64::from_le_bytes(tries);
    format!("{answer} {count} {}", in_hex(&table))
}

/// The answer and the table, however long the search would be.
fn decision(request: &[u8]) -> String {
    let table = decided(request).map(|table| encode(&table));
    match table {
        Ok(bytes) => format!("{} {}", bytes.len(), in_hex(&bytes)),
        Err(number) => format!("-{number} -"),
    }
}

/// The answers about one request, and the flight that its lines make.
struct Answerer {
    request: Vec<u8>,
    table: Vec<u8>,
    state: Vec<u8>,
    counts: [u32; 16],
}

impl Answerer {
    fn new(request: Vec<u8>) -> Answerer {
        let mut state = vec![0; STATE_LEN];
        Reference.fresh(&mut state);
        Answerer {
            request,
            table: Vec::new(),
            state,
            counts: [0; 16],
        }
    }

    fn plan(&mut self) -> String {
        self.table.resize(LONGEST_TABLE, 0);
        let answer = Reference.plan_freely(&self.request, &mut self.table);
        self.table.truncate(answer.max(0) as usize);
        format!("{answer} {}", in_hex(&self.table))
    }

    fn next_frame(&mut self) -> String {
        let mut entries = vec![0; ENTRIES_LEN];
        let answer = Reference.next_frame(&self.table, &mut self.state, &mut entries);
        let row = u16::from_le_bytes([self.state[0], self.state[1]]);
        let served = in_hex(&entries[..2 * answer.max(0) as usize]);
        format!("{answer} {served} row {row} mark {}", self.state[2])
    }

    /// Counted here by task, from the accepted reports alone.
    fn report(&mut self, task: u8, ticks: u32) -> String {
        let answer = Reference.report(&self.request, task, ticks, &mut self.state);
        let number = usize::from(task);
        if answer == 0 {
            let read = request::read(&self.request).expect("it was accepted");
            self.counts[number] += u32::from(i64::from(ticks) > read.tasks[number].c);
        }
        let counts: Vec<String> = self.counts.iter().map(u32::to_string).collect();
        format!("{answer} counts {}", counts.join(","))
    }

    fn one_off(&self, table: &str, asked: &[&str]) -> String {
        let [length, from, until] = [0, 1, 2].map(|place| number(asked[place]));
        let answer = Reference.one_off(&self.request, &from_hex(table), length, from, until);
        answer.to_string()
    }
}

fn number<T: std::str::FromStr>(word: &str) -> T {
    word.parse().ok().expect("a number")
}

/// The text with the answer of every line made anew.
pub fn answered(text: &str) -> String {
    let mut about = Answerer::new(Vec::new());
    let mut lines = String::new();
    for line in text.lines() {
        let words: Vec<&str> = line.split(' ').collect();
        let answer = match words[0] {
            "request" => {
                about = Answerer::new(from_hex(words[1]));
                fields(&request::read(&about.request))
            }
            "plan" => about.plan(),
            "decide" => decision(&from_hex(words[1])),
            "within" => within(&about.request, number(words[1])),
            "check" => Reference
                .check(&about.request, &from_hex(words[1]))
                .to_string(),
            "next" => about.next_frame(),
            "report" => about.report(number(words[1]), number(words[2])),
            "one-off" => about.one_off(words[1], &words[2..5]),
            other => panic!("no question is called {other}"),
        };
        let asked = match words[0] {
            "request" | "check" | "within" | "decide" => 2,
            "report" => 3,
            "one-off" => 5,
            _ => 1,
        };
        lines.push_str(&format!("{} {answer}\n", words[..asked].join(" ")));
    }
    lines
}

/// Whether bytes stand behind the pairs of a request.
fn has_third_section(bytes: &[u8]) -> bool {
    let pairs_at = 1 + 8 * bytes.first().map_or(0, |n| usize::from(*n));
    match bytes.get(pairs_at) {
        Some(pairs) => bytes.len() > pairs_at + 1 + 2 * usize::from(*pairs),
        None => false,
    }
}

fn some_request(rng: &mut Random, with_third_section: bool) -> Vec<u8> {
    loop {
        let bytes = if rng.chance(70) {
            generate::valid_bytes(rng)
        } else {
            generate::request_bytes(rng)
        };
        if has_third_section(&bytes) == with_third_section
            && tries_within(&bytes, MOST_TRIES).is_some()
        {
            return bytes;
        }
    }
}

fn some_report(rng: &mut Random, bytes: &[u8]) -> String {
    let n = bytes.first().map_or(1, |n| usize::from(*n).clamp(1, 16));
    let unknown = usize::from(rng.chance(10));
    let task = rng.below(n + unknown);
    let c = bytes.get(1 + 8 * task).map_or(5, |byte| u32::from(*byte));
    let ticks = rng.pick(&[0, c, c + 1, c + 1, c + 256, u32::MAX]);
    format!("report {task} {ticks}\n")
}

/// Planning of so many requests that are searched, of some others and of some with a long search,
/// with several numbers of tries allowed.
pub fn drawn_tries(seed: u64, requests: usize) -> String {
    let mut rng = Random::new(seed);
    let mut all = Vec::new();
    while all.len() < requests {
        let bytes = generate::valid_bytes(&mut rng);
        if tries_within(&bytes, 0).is_none() {
            all.push(bytes);
        }
    }
    all.extend((0..requests / 3).map(|_| generate::request_bytes(&mut rng)));
    all.extend([
        given_tries::planned_after(20_000),
        given_tries::refused_after(20_000),
    ]);
    all.extend([sheet::pigeons(11, 10, 0), sheet::pigeons(16, 15, 0)]);
    let mut text = String::new();
    for bytes in all {
        text.push_str(&format!("request {}\n", in_hex(&bytes)));
        let allowed = match tries_within(&bytes, MOST_TRIES) {
            Some(full) => allowances(full),
            None => vec![0, 1, rng.below(MOST_TRIES as usize) as u64, MOST_TRIES],
        };
        for allowance in allowed {
            text.push_str(&format!("within {allowance}\n"));
        }
    }
    answered(&text)
}

/// Questions about so many requests, with or without a third section, and their answers.
pub fn drawn(seed: u64, requests: usize, with_third_section: bool) -> String {
    let mut rng = Random::new(seed);
    let mut text = String::new();
    for _ in 0..requests {
        let bytes = some_request(&mut rng, with_third_section);
        text.push_str(&format!("request {}\nplan\n", in_hex(&bytes)));
        let chosen = planned(&bytes).ok();
        let pool = generate::table_pool(&mut rng, &bytes, chosen.as_ref(), MOST_TRIES);
        for table in pool.iter().take(TABLES_OF_A_REQUEST) {
            text.push_str(&format!("check {}\n", in_hex(table)));
        }
        if chosen.is_some() {
            for _ in 0..CALLS_OF_A_FLIGHT {
                let report = rng.chance(40);
                text.push_str(&if report {
                    some_report(&mut rng, &bytes)
                } else {
                    "next\n".to_string()
                });
            }
        }
    }
    answered(&text)
}

/// So many requests that the programs' tries leave open.
pub fn drawn_left_open(requests: usize) -> String {
    let asked = |bytes: Vec<u8>| format!("decide {}\n", in_hex(&bytes));
    let text: String = left_open::requests(requests)
        .into_iter()
        .map(asked)
        .collect();
    answered(&text)
}

fn some_one_off(rng: &mut Random, request: &[u8], table: &[u8]) -> String {
    let Asked {
        length,
        from,
        until,
    } = one_off::asked(rng, request, table);
    format!("one-off {} {length} {from} {until}\n", in_hex(table))
}

/// Questions about one-off transfers on tables of so many requests, and their answers: some on each
/// plan, one on each other table.
pub fn drawn_one_off(seed: u64, requests: usize) -> String {
    let mut rng = Random::new(seed);
    let mut text = String::new();
    for round in 0..requests {
        let bytes = some_request(&mut rng, round % 3 == 0);
        text.push_str(&format!("request {}\n", in_hex(&bytes)));
        let chosen = planned(&bytes).ok();
        let pool = generate::table_pool(&mut rng, &bytes, chosen.as_ref(), MOST_TRIES);
        for table in pool.iter().take(TABLES_OF_A_REQUEST) {
            let count = match Reference.check(&bytes, table) {
                0 => ASKED_OF_A_PLAN,
                _ => 1,
            };
            for _ in 0..count {
                text.push_str(&some_one_off(&mut rng, &bytes, table));
            }
        }
    }
    answered(&text)
}
