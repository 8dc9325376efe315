//! Run times of the library beside the same search in C, written for speed (bench/search.c), and
//! beside a plain Rust version of its calls. Before a call is timed the sides are compared: where
//! an answer, a table or a number of tries differs, the run ends with a failure. All of them count
//! their tries, and are allowed more than any search here makes.

use std::hint::black_box;

use bus_tests::bus::{put_counts, Bus, COUNTS_LEN, ENTRIES_LEN, STATE_LEN, TRIES_LEN};
use bus_tests::hard;
use bus_tests::library::Library;
use bus_tests::plain::{self, Effort};
use bus_tests::reference::phases::{counts, with_phase};
use bus_tests::reference::{read_cycle, table};
use bus_tests::sheet;
use bus_tests::timing::{least, measure, median, quantile, Turns};

/// More than the longest table.
const TABLE_LEN: usize = 600;

/// Turns of most calls, of a hard request, of the longest search, and of ten thousand phases. They
/// are many because the search in C has two speeds on some requests, a tenth apart, and may keep to
/// the slower one for long.
const TURNS: usize = 200;
const TURNS_OF_HARD: usize = 40;
const TURNS_OF_LONGEST: usize = 40;
const TURNS_OF_PHASES: usize = 12;

const LEGEND: &str = "\
In each turn both sides are timed once, by turns the library first and the other first, in
processor time of one thread. ms, us: for one call, the least of all turns. M/s: million tries a
second at that. ratio: library / other by the least times. median, quartiles: of library / other
within a turn. passed over: tries of a frame that did not place the job.";

mod c {
    extern "C" {
        pub fn search_plan(
            request: *const u8,
            request_len: usize,
            allowance: u64,
            f: *mut u16,
            frames: *mut [u16; 128],
            tries: *mut u64,
        ) -> i32;
    }
}

/// What the search in C found: the number of jobs and the plan, or a refusal below 0.
struct Searched {
    answer: i32,
    f: u16,
    frames: [u16; 128],
    tries: u64,
}

/// The request is one that the library plans or refuses with 9, 10 or 23, as all here are.
fn search_in_c(request: &[u8], allowance: u64) -> Searched {
    let (mut f, mut frames, mut tries) = (0, [0; 128], 0);
    let (start, len) = (request.as_ptr(), request.len());
    let answer = unsafe { c::search_plan(start, len, allowance, &mut f, &mut frames, &mut tries) };
    Searched {
        answer,
        f,
        frames,
        tries,
    }
}

/// The table of the plan that C found, or its refusal.
fn table_by_c(request: &[u8], found: &Searched) -> Result<Vec<u8>, i32> {
    if found.answer < 0 {
        return Err(-found.answer);
    }
    let placed = &found.frames[..found.answer as usize];
    let frames: Vec<i64> = placed.iter().map(|&k| i64::from(k)).collect();
    let cycle = read_cycle(request)?;
    let planned = table::of_plan(&cycle, i64::from(found.f), &frames);
    Ok(table::encode(&planned))
}

/// The bytes that a call writes, or its refusal.
fn written(call: impl Fn(&mut [u8]) -> i32) -> Result<Vec<u8>, i32> {
    let mut out = vec![0; TABLE_LEN];
    let answer = call(&mut out);
    if answer < 0 {
        return Err(-answer);
    }
    out.truncate(answer as usize);
    Ok(out)
}

/// The bytes that planning writes, or its refusal; and its count of tries.
fn planned(
    plan: impl Fn(&[u8], u64, &mut [u8], &mut [u8]) -> i32,
    request: &[u8],
    allowance: u64,
) -> (Result<Vec<u8>, i32>, u64) {
    let mut tries = [0; TRIES_LEN];
    let mut out = vec![0; TABLE_LEN];
    let answer = plan(request, allowance, &mut out, &mut tries);
    out.truncate(answer.max(0) as usize);
    let table = if answer < 0 { Err(-answer) } else { Ok(out) };
    (table, u64::from_le_bytes(tries))
}

fn planned_by_library(request: &[u8], allowance: u64) -> (Result<Vec<u8>, i32>, u64) {
    let plan = |request: &[u8], allowance, out: &mut [u8], tries: &mut [u8]| {
        Library.plan(request, allowance, out, tries)
    };
    planned(plan, request, allowance)
}

/// Library, Rust and C come to the same within so many tries, and with the same count.
fn compare(name: &str, request: &[u8], allowance: u64) -> (Result<Vec<u8>, i32>, u64) {
    let library = planned_by_library(request, allowance);
    let rust = planned(plain::plan, request, allowance);
    assert_eq!(library, rust, "{name}: library and plain Rust differ");
    let found = search_in_c(request, allowance);
    let c = (table_by_c(request, &found), found.tries);
    assert_eq!(library, c, "{name}: library and C differ");
    library
}

/// A request whose search is timed.
struct Search {
    name: String,
    request: Vec<u8>,
    effort: Effort,
    turns: usize,
    answer: String,
}

/// The request, after the three sides were compared on it, with tries enough and with one too few.
fn compared(name: &str, request: Vec<u8>, effort: Effort, turns: usize) -> Search {
    let (table, tries) = compare(name, &request, u64::MAX);
    assert_eq!(tries, effort.tries, "{name}");
    let ended = compare(name, &request, tries - 1);
    assert_eq!(ended, (Err(23), tries - 1), "{name}");
    let answer = match table {
        Ok(bytes) => format!("f {}", u16::from_le_bytes([bytes[1], bytes[2]])),
        Err(number) => format!("refused {number}"),
    };
    Search {
        name: name.to_string(),
        request,
        effort,
        turns,
        answer,
    }
}

fn by_hand(name: &str, request: Vec<u8>, turns: usize) -> Search {
    let effort = plain::effort_within(&request, u64::MAX - 1).expect("no search is that long");
    compared(name, request, effort, turns)
}

fn searches_by_hand() -> Vec<Search> {
    let searched = |(name, request): (&str, Vec<u8>)| {
        let is_longest = name == hard::LONGEST;
        by_hand(
            name,
            request,
            if is_longest { TURNS_OF_LONGEST } else { TURNS },
        )
    };
    hard::by_hand().into_iter().map(searched).collect()
}

fn hard_searches() -> Vec<Search> {
    hard::requests()
        .into_iter()
        .map(|hard| compared(&hard.name, hard.request, hard.effort, TURNS_OF_HARD))
        .collect()
}

/// The other side of planning: its name and its call.
type Other = (&'static str, fn(&[u8]) -> i32);

const IN_C: Other = ("C", |request| search_in_c(request, u64::MAX).answer);
const IN_RUST: Other = ("Rust", |request| {
    let mut out = [0; TABLE_LEN];
    plain::plan(request, u64::MAX, &mut out, &mut [0; TRIES_LEN])
});

fn timed(search: &Search, other: Other) -> Turns {
    let mut out = [0; TABLE_LEN];
    measure(
        search.turns,
        &mut || Library.plan_freely(black_box(&search.request), &mut out),
        &mut || other.1(black_box(&search.request)),
    )
}

/// The first cell to the left, the others to the right.
fn print_row(widths: &[usize], cells: &[String]) {
    print!("{:<1$}", cells[0], widths[0]);
    for (cell, width) in cells.iter().zip(widths).skip(1) {
        print!("  {cell:>width$}");
    }
    println!();
}

fn cells(names: &[&str]) -> Vec<String> {
    names.iter().map(|name| name.to_string()).collect()
}

/// Library / other: of the least times, and the median and quartiles of the turns.
fn ratio_cells(times: &Turns) -> [String; 3] {
    let ratios = times.ratios();
    [
        format!("{:.2}", least(&times.library) / least(&times.other)),
        format!("{:.2}", median(&ratios)),
        format!("{:.2} to {:.2}", quantile(&ratios, 1), quantile(&ratios, 3)),
    ]
}

const SEARCH_WIDTHS: [usize; 12] = [29, 10, 9, 11, 5, 10, 8, 11, 8, 5, 6, 12];

fn print_search_header(other: &str) {
    println!("\nPlanning, beside {other}");
    let mut header = cells(&["request", "answer", "tries", "passed over", "turns"]);
    header.extend(cells(&["library ms", &format!("{other} ms")]));
    header.extend(cells(&["library M/s", &format!("{other} M/s")]));
    header.extend(cells(&["ratio", "median", "quartiles"]));
    print_row(&SEARCH_WIDTHS, &header);
}

/// Seconds of both sides, and the tries a second that they come to.
fn rate_cells(tries: u64, library: f64, other: f64) -> [String; 4] {
    [
        format!("{:.2}", library * 1e3),
        format!("{:.2}", other * 1e3),
        format!("{:.0}", tries as f64 / library / 1e6),
        format!("{:.0}", tries as f64 / other / 1e6),
    ]
}

fn print_search(search: &Search, times: &Turns) {
    let Effort { tries, placings } = search.effort;
    let passed_over = 100.0 * (tries - placings) as f64 / tries as f64;
    let mut row = vec![
        search.name.clone(),
        search.answer.clone(),
        tries.to_string(),
        format!("{passed_over:.0} %"),
        search.turns.to_string(),
    ];
    row.extend(rate_cells(
        tries,
        least(&times.library),
        least(&times.other),
    ));
    row.extend(ratio_cells(times));
    print_row(&SEARCH_WIDTHS, &row);
}

/// The sums of one figure of each search; their ratio.
fn print_sum(name: &str, tries: u64, all: &[Turns], figure: fn(&[f64]) -> f64) -> f64 {
    let library: f64 = all.iter().map(|times| figure(&times.library)).sum();
    let other: f64 = all.iter().map(|times| figure(&times.other)).sum();
    let mut row = cells(&[name, "", &tries.to_string(), "", ""]);
    row.extend(rate_cells(tries, library, other));
    row.push(format!("{:.2}", library / other));
    print_row(&SEARCH_WIDTHS, &row);
    library / other
}

/// What the budgets speak of.
struct Figures {
    /// Library / other over all with seeds, by the least times.
    ratio: f64,
    /// Million tries a second of the library with the slowest request, by the least times.
    slowest: f64,
}

fn print_searches(other: Other, by_hand: &[Search], hard: &[Search]) -> Figures {
    print_search_header(other.0);
    let mut slowest = f64::INFINITY;
    let mut timed_and_printed = |search: &Search| {
        let times = timed(search, other);
        print_search(search, &times);
        let rate = search.effort.tries as f64 / least(&times.library) / 1e6;
        slowest = slowest.min(rate);
        times
    };
    for search in by_hand {
        timed_and_printed(search);
    }
    let all: Vec<Turns> = hard.iter().map(timed_and_printed).collect();
    let tries = hard.iter().map(|search| search.effort.tries).sum();
    let ratio = print_sum("all with seeds, least times", tries, &all, least);
    print_sum("all with seeds, median times", tries, &all, median);
    Figures { ratio, slowest }
}

const MOST_TIMES_C: f64 = 1.2;
const LEAST_MILLIONS: f64 = 150.0;
const MOST_SECONDS_OF_PHASES: f64 = 2.0;

fn print_budgets(beside_c: &Figures, phases: f64) {
    let met = |holds: bool| if holds { "met" } else { "not met" };
    let Figures { ratio, slowest } = beside_c;
    println!("\nBudgets");
    println!(
        "at most {MOST_TIMES_C:.2} times C over all with seeds, least times: {ratio:.2}, {}",
        met(*ratio <= MOST_TIMES_C)
    );
    println!(
        "at least {LEAST_MILLIONS:.0} million tries a second with every request: {slowest:.0}, {}",
        met(*slowest >= LEAST_MILLIONS)
    );
    println!(
        "at most {MOST_SECONDS_OF_PHASES:.2} s for 10,000 phases of 16 tasks: {phases:.3} s, {}",
        met(phases <= MOST_SECONDS_OF_PHASES)
    );
}

const CALL_WIDTHS: [usize; 7] = [40, 5, 10, 8, 5, 6, 12];

/// A unit of time: its name, and how many of it a second has.
type Unit = (&'static str, f64);

const MICROSECONDS: Unit = ("us", 1e6);
const MILLISECONDS: Unit = ("ms", 1e3);

fn print_call_header(title: &str, (unit, _): Unit) {
    println!("\n{title}, beside Rust");
    let mut header = cells(&["call", "turns"]);
    header.extend([format!("library {unit}"), format!("Rust {unit}")]);
    header.extend(cells(&["ratio", "median", "quartiles"]));
    print_row(&CALL_WIDTHS, &header);
}

fn print_call_in((_, each): Unit, name: &str, times: &Turns) {
    let mut row = cells(&[name, &times.library.len().to_string()]);
    row.push(format!("{:.3}", least(&times.library) * each));
    row.push(format!("{:.3}", least(&times.other) * each));
    row.extend(ratio_cells(times));
    print_row(&CALL_WIDTHS, &row);
}

fn print_call(name: &str, times: &Turns) {
    print_call_in(MICROSECONDS, name, times);
}

fn time_plan(name: &str, request: &[u8]) {
    let library = planned_by_library(request, u64::MAX);
    let rust = planned(plain::plan, request, u64::MAX);
    assert_eq!(library, rust, "plan, {name}");
    let mut outs = [[0; TABLE_LEN]; 2];
    let [first, second] = &mut outs;
    let times = measure(
        TURNS,
        &mut || Library.plan_freely(black_box(request), first),
        &mut || plain::plan(black_box(request), u64::MAX, second, &mut [0; TRIES_LEN]),
    );
    print_call(&format!("plan: {name}"), &times);
}

fn table_of(request: &[u8]) -> Vec<u8> {
    let (table, _) = planned(plain::plan, request, u64::MAX);
    table.expect("there is a plan")
}

fn time_check(name: &str, request: &[u8]) {
    let table = &table_of(request)[..];
    let answers = [Library.check(request, table), plain::check(request, table)];
    assert_eq!(answers, [0, 0], "check, {name}");
    let times = measure(
        TURNS,
        &mut || Library.check(black_box(request), black_box(table)),
        &mut || plain::check(black_box(request), black_box(table)),
    );
    print_call(&format!("check: {name}"), &times);
}

fn time_rewrite(name: &str, request: &[u8]) {
    let table = &table_of(request)[..];
    let library = written(|out| Library.rewrite(request, table, out));
    let rust = written(|out| plain::rewrite(request, table, out));
    assert_eq!(library, rust, "rewrite, {name}");
    let mut outs = [[0; TABLE_LEN]; 2];
    let [first, second] = &mut outs;
    let times = measure(
        TURNS,
        &mut || Library.rewrite(black_box(request), black_box(table), first),
        &mut || plain::rewrite(black_box(request), black_box(table), second),
    );
    print_call(&format!("rewrite: {name}"), &times);
}

/// What one side of the dispatcher keeps.
struct Flight {
    state: [u8; STATE_LEN],
    entries: [u8; ENTRIES_LEN],
}

fn fresh() -> Flight {
    let mut state = [0; STATE_LEN];
    assert_eq!(Library.fresh(&mut state), 0);
    let entries = [0; ENTRIES_LEN];
    Flight { state, entries }
}

fn next_of_library(table: &[u8], flight: &mut Flight) -> i32 {
    Library.next_frame(table, &mut flight.state, &mut flight.entries)
}

fn next_of_rust(table: &[u8], flight: &mut Flight) -> i32 {
    plain::next_frame(table, &mut flight.state, &mut flight.entries)
}

/// Three cycles of up to 256 rows, answer by answer.
fn compare_flights(name: &str, table: &[u8]) {
    let (mut library, mut rust) = (fresh(), fresh());
    for _ in 0..3 * 256 {
        let answers = [
            next_of_library(table, &mut library),
            next_of_rust(table, &mut rust),
        ];
        assert_eq!(answers[0], answers[1], "next_frame, {name}");
        assert_eq!(library.entries, rust.entries, "next_frame, {name}");
        assert_eq!(library.state, rust.state, "next_frame, {name}");
    }
}

fn time_next_frame(name: &str, request: &[u8]) {
    let table = &table_of(request)[..];
    compare_flights(name, table);
    let (mut library, mut rust) = (fresh(), fresh());
    let times = measure(
        TURNS,
        &mut || next_of_library(black_box(table), &mut library),
        &mut || next_of_rust(black_box(table), &mut rust),
    );
    print_call(&format!("next_frame: {name}"), &times);
}

/// The phases of a task counted by plain Rust: each is planned.
fn phases_in_rust(request: &[u8], task: usize, period: i64, allowance: u64, out: &mut [u8]) -> i32 {
    let end = |phase: i64| {
        let (bytes, mut table) = (with_phase(request, task, phase), [0; TABLE_LEN]);
        -plain::plan(&bytes, allowance, &mut table, &mut [0; TRIES_LEN]).min(0)
    };
    let ends: Vec<i32> = (0..period).map(end).collect();
    put_counts(counts(&ends), out);
    0
}

/// Allowed for each phase that is counted here, which takes 16 at most.
const TRIES_OF_A_PHASE: u64 = 16;

/// 16 tasks of the longest period; the least seconds of the library.
fn time_phases(name: &str, request: &[u8]) -> f64 {
    let (mut library, mut rust) = ([0; COUNTS_LEN], [0; COUNTS_LEN]);
    let by_rust = |out: &mut [u8]| phases_in_rust(request, 3, 10_000, TRIES_OF_A_PHASE, out);
    let answer = Library.phases(request, 3, TRIES_OF_A_PHASE, &mut library);
    assert_eq!((answer, by_rust(&mut rust)), (0, 0), "phases, {name}");
    assert_eq!(library, rust, "phases, {name}");
    let times = measure(
        TURNS_OF_PHASES,
        &mut || Library.phases(black_box(request), 3, TRIES_OF_A_PHASE, &mut library),
        &mut || by_rust(&mut rust),
    );
    print_call_in(MILLISECONDS, &format!("phases: {name}"), &times);
    least(&times.library)
}

fn print_calls() {
    print_call_header("Short calls", MICROSECONDS);
    time_plan("P3, 4 tasks, 1 pair", &sheet::p3());
    time_plan("P5, no plan", &sheet::p5());
    time_plan("P9, 1 job, 256 rows", &sheet::p9());
    time_plan("128 jobs, 256 rows", &sheet::longest_table());
    time_check("P3, 9 jobs, 6 rows", &sheet::p3());
    time_check("16 pairs, 128 jobs, 64 rows", &hard::paired_pigeons(10));
    time_check("128 jobs, 256 rows", &sheet::longest_table());
    time_rewrite("128 jobs, 256 rows", &sheet::longest_table());
    time_next_frame("P1, 2 rows", &sheet::p1());
    time_next_frame("128 jobs, 64 rows", &hard::paired_pigeons(10));
    time_next_frame("128 jobs, 256 rows", &sheet::longest_table());
}

/// The least seconds of the longer of the two.
fn print_phases() -> f64 {
    print_call_header("10,000 phases of 16 tasks", MILLISECONDS);
    let roomy = time_phases("deadline 10,000", &sheet::long_periods(10_000));
    let tight = time_phases("deadline 60", &sheet::long_periods(60));
    roomy.max(tight)
}

fn main() {
    println!("{LEGEND}");
    let by_hand = searches_by_hand();
    let hard = hard_searches();
    let beside_c = print_searches(IN_C, &by_hand, &hard);
    print_searches(IN_RUST, &by_hand, &hard);
    print_calls();
    let phases = print_phases();
    print_budgets(&beside_c, phases);
}
