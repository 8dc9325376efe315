//! Run times of deciding beside the same algorithm in C, written for speed (bench/exact.c), and of
//! short decisions beside the library's own planning. Before a call is timed the sides are compared:
//! where an answer or a table differs, the run ends with a failure.

use std::hint::black_box;

use bus_tests::bus::{Bus, TRIES_LEN};
use bus_tests::call::hex;
use bus_tests::generate;
use bus_tests::hard;
use bus_tests::left_open::stored;
use bus_tests::library::Library;
use bus_tests::random::Random;
use bus_tests::reference::{read_cycle, table};
use bus_tests::sheet;
use bus_tests::timing::{least, measure, median};

/// More than the longest table.
const TABLE_LEN: usize = 600;
const TURNS: usize = 6;
/// Random requests that planning ends with at most so many tries.
const SHORT: usize = 200;
const SHORT_TRIES: u64 = 1_000;

const MOST_TIMES_C: f64 = 1.5;
const MOST_MILLISECONDS: f64 = 100.0;
const MOST_TIMES_PLANNING: f64 = 3.0;

mod c {
    extern "C" {
        pub fn exact_plan(
            request: *const u8,
            request_len: usize,
            f: *mut u16,
            frames: *mut [u16; 128],
        ) -> i32;
    }
}

/// The answer in C, the frame length and the frames. The request is one that the library plans or
/// refuses with 9 or 10, as all here are.
fn in_c(request: &[u8]) -> (i32, u16, [u16; 128]) {
    let (mut f, mut frames) = (0, [0; 128]);
    let answer = unsafe { c::exact_plan(request.as_ptr(), request.len(), &mut f, &mut frames) };
    (answer, f, frames)
}

type Written = Result<Vec<u8>, i32>;

/// The table of the plan that C found, or its refusal.
fn table_by_c(request: &[u8]) -> Written {
    let (answer, f, frames) = in_c(request);
    if answer < 0 {
        return Err(-answer);
    }
    let placed = frames[..answer as usize].iter();
    let frames: Vec<i64> = placed.map(|k| i64::from(*k)).collect();
    let chosen = table::of_plan(&read_cycle(request)?, i64::from(f), &frames);
    Ok(table::encode(&chosen))
}

fn written(call: impl Fn(&mut [u8]) -> i32) -> Written {
    let mut out = vec![0; TABLE_LEN];
    let answer = call(&mut out);
    out.truncate(answer.max(0) as usize);
    if answer < 0 {
        return Err(-answer);
    }
    Ok(out)
}

fn table_by_planning(request: &[u8]) -> Written {
    written(|out| Library.plan_freely(request, out))
}

/// What deciding is timed beside.
struct Other {
    name: &'static str,
    table: fn(&[u8]) -> Written,
    call: fn(&[u8]) -> i32,
}

const IN_C: Other = Other {
    name: "C",
    table: table_by_c,
    call: |request| in_c(request).0,
};
const PLANNING: Other = Other {
    name: "planning",
    table: table_by_planning,
    call: |request| Library.plan_freely(request, &mut [0; TABLE_LEN]),
};

struct Named {
    name: String,
    request: Vec<u8>,
}

fn named(name: impl Into<String>, request: Vec<u8>) -> Named {
    let name = name.into();
    Named { name, request }
}

/// The least milliseconds of both sides.
#[derive(Clone, Copy)]
struct Times {
    library: f64,
    other: f64,
}

impl Times {
    fn ratio(&self) -> f64 {
        self.library / self.other
    }
}

/// Both sides come to the same; then they are timed.
fn timed(request: &[u8], other: &Other) -> Times {
    let library = written(|out| Library.decide(request, out));
    assert_eq!(library, (other.table)(request), "{}", hex(request));
    let turns = measure(
        TURNS,
        &mut || Library.decide(black_box(request), &mut [0; TABLE_LEN]),
        &mut || (other.call)(black_box(request)),
    );
    Times {
        library: least(&turns.library) * 1e3,
        other: least(&turns.other) * 1e3,
    }
}

fn print_header(title: &str, other: &str) {
    let (sum, most) = (format!("{other} ms"), format!("of {other}"));
    println!("\n{title}, beside {other}");
    println!(
        "{:<32}{:>8}{:>12}{sum:>12}{:>8}{:>9}{:>9}{:>12}{most:>12}",
        "requests", "number", "library ms", "ratio", "median", "most", "longest ms"
    );
}

/// What the budgets speak of.
struct Figures {
    /// Library / other by the sums, and the greatest of one request.
    ratio: f64,
    most: f64,
    /// The longest time of the library in milliseconds.
    longest: f64,
}

fn figures(times: &[Times]) -> Figures {
    let sum = |side: fn(&Times) -> f64| -> f64 { times.iter().map(side).sum() };
    let most = |side: fn(&Times) -> f64| times.iter().map(side).fold(0.0, f64::max);
    Figures {
        ratio: sum(|both| both.library) / sum(|both| both.other),
        most: most(Times::ratio),
        longest: most(|both| both.library),
    }
}

fn print_row(name: &str, times: &[Times]) -> Figures {
    let of = figures(times);
    let ratios: Vec<f64> = times.iter().map(Times::ratio).collect();
    let sum = |side: fn(&Times) -> f64| -> f64 { times.iter().map(side).sum() };
    let longest_other = times.iter().map(|both| both.other).fold(0.0, f64::max);
    println!(
        "{name:<32}{:>8}{:>12.4}{:>12.4}{:>8.2}{:>9.2}{:>9.2}{:>12.4}{longest_other:>12.4}",
        times.len(),
        sum(|both| both.library),
        sum(|both| both.other),
        of.ratio,
        median(&ratios),
        of.most,
        of.longest,
    );
    of
}

/// A row for each request, and one for all.
fn print_each(requests: &[Named], other: &Other) -> Vec<Times> {
    let row = |named: &Named| {
        let times = timed(&named.request, other);
        print_row(&named.name, &[times]);
        times
    };
    requests.iter().map(row).collect()
}

fn all_timed(requests: &[Vec<u8>], other: &Other) -> Vec<Times> {
    let each = requests.iter();
    each.map(|request| timed(request, other)).collect()
}

/// The long searches of the program `bench`.
fn long_searches() -> Vec<Named> {
    let by_hand = hard::by_hand().into_iter();
    let by_hand = by_hand.map(|(name, request)| named(name, request));
    let seeded = hard::requests().into_iter();
    let seeded = seeded.map(|hard| named(hard.name, hard.request));
    by_hand.chain(seeded).collect()
}

/// Requests of the bench sheet, which are planned in microseconds.
fn sheet_requests() -> Vec<Named> {
    vec![
        named("P1", sheet::p1()),
        named("P3, 4 tasks, 1 pair", sheet::p3()),
        named("P5, no plan", sheet::p5()),
        named("P7, a carried job", sheet::p7()),
        named("P9, 1 job, 256 rows", sheet::p9()),
        named("128 jobs, 256 rows", sheet::longest_table()),
    ]
}

/// Random requests whose plan, or that there is none, is known after a few tries.
fn short_requests() -> Vec<Vec<u8>> {
    let mut rng = Random::new(337);
    let mut short = Vec::new();
    while short.len() < SHORT {
        let bytes = generate::valid_bytes(&mut rng);
        let mut tries = [0; TRIES_LEN];
        let answer = Library.plan(&bytes, SHORT_TRIES, &mut [0; TABLE_LEN], &mut tries);
        if answer != -23 && tries != [0; TRIES_LEN] {
            short.push(bytes);
        }
    }
    short
}

fn print_long() -> [Figures; 2] {
    print_header("Long searches", IN_C.name);
    let times = print_each(&long_searches(), &IN_C);
    let long = print_row("all long searches", &times);
    let open: Vec<Vec<u8>> = stored().into_iter().map(|open| open.request).collect();
    let times = all_timed(&open, &IN_C);
    let open = print_row("left open by 10,000,000 tries", &times);
    [long, open]
}

fn print_short() -> Figures {
    print_header("Short searches", PLANNING.name);
    let mut times = print_each(&sheet_requests(), &PLANNING);
    let random = all_timed(&short_requests(), &PLANNING);
    print_row("random, at most 1,000 tries", &random);
    times.extend(random);
    print_row("all short searches", &times)
}

fn judge(words: &str, figure: f64, most: f64) {
    let met = if figure <= most { "met" } else { "not met" };
    println!("{words}: {figure:.2}, {met}");
}

fn main() {
    println!(
        "Deciding. For each request the least of {TURNS} turns, in processor time of one thread."
    );
    println!("ratio: library / other by the sums; median, most: of the requests' own ratios.");
    let [long, open] = print_long();
    let short = print_short();
    println!("\nBudgets of deciding");
    judge(
        "at most 1.50 times C over the long searches",
        long.ratio,
        MOST_TIMES_C,
    );
    judge(
        "at most 1.50 times C over those left open",
        open.ratio,
        MOST_TIMES_C,
    );
    let longest = long.longest.max(open.longest);
    judge(
        "at most 100 ms for each of them, ms",
        longest,
        MOST_MILLISECONDS,
    );
    judge(
        "at most 3.00 times planning for all short ones",
        short.ratio,
        MOST_TIMES_PLANNING,
    );
    judge(
        "at most 3.00 times planning for each short one",
        short.most,
        MOST_TIMES_PLANNING,
    );
}
