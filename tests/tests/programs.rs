//! The built programs beside the second planner: every byte that they write to standard output
//! and standard error. BUS_BIN_DIR names the folder of the programs.
#![cfg(feature = "linked")]

use std::collections::BTreeMap;
use std::fs;
use std::io::Write;
use std::path::{Path, PathBuf};
use std::process::Stdio;
use std::thread;
use std::time::Duration;

use bus_tests::call::hex;
use bus_tests::comparison::MOST_TRIES;
use bus_tests::generate;
use bus_tests::given_tries;
use bus_tests::plain;
use bus_tests::programs::{command, fed, given};
use bus_tests::random::Random;
use bus_tests::reference::printed::{by_check_table, by_planners, by_planning, Printed};
use bus_tests::reference::table::{decode, encode, Table};
use bus_tests::reference::{planned, tries_within, PROGRAM_TRIES};
use bus_tests::sheet;

const SEED: u64 = 51;
const REQUESTS: u64 = 600;
/// Every kind of output must come at least this often.
const LEAST: u64 = 3;

/// A file for the programs, with these bytes; tests that run at once use different names.
fn file(name: &str, bytes: &[u8]) -> PathBuf {
    let path = Path::new(env!("CARGO_TARGET_TMPDIR")).join(name);
    fs::write(&path, bytes).unwrap_or_else(|reason| panic!("{}: {reason}", path.display()));
    path
}

fn text(bytes: &[u8]) -> String {
    String::from_utf8_lossy(bytes).into_owned()
}

fn same(program: &str, printed: &Printed, expected: &Printed, about: &str) {
    assert!(
        printed == expected,
        "{program} wrote {:?} and {:?} for {:?} and {:?}: {about}",
        text(&printed.out),
        text(&printed.err),
        text(&expected.out),
        text(&expected.err)
    );
}

/// How often each kind of output was seen.
#[derive(Default)]
struct Seen {
    counts: BTreeMap<String, u64>,
}

impl Seen {
    fn note(&mut self, program: &str, printed: &Printed) {
        self.note_answer(program, printed);
        match program {
            "plan" => self.note_listing(printed),
            "timeline" => self.note_timeline(printed),
            _ => {}
        }
    }

    fn count(&mut self, kind: String) {
        *self.counts.entry(kind).or_default() += 1;
    }

    /// `refused N` and `accepted` are the whole of what a program writes, on either side.
    fn note_answer(&mut self, program: &str, printed: &Printed) {
        let written = text(&printed.out) + &text(&printed.err);
        if written.starts_with("refused ") || written == "accepted\n" {
            self.count(format!("{program}: {}", written.trim_end()));
        }
    }

    /// The entries of the lines behind the first, which has the sizes.
    fn note_listing(&mut self, listing: &Printed) {
        for line in text(&listing.out).lines().skip(1) {
            let entries: Vec<&str> = line.split(' ').skip(2).collect();
            if entries.len() == 16 {
                self.count("plan: a row with 16 entries".to_string());
            }
            entries.iter().for_each(|entry| self.note_entry(entry));
        }
    }

    /// The records stand in the lines before the last, which has the busy ticks.
    fn note_timeline(&mut self, printed: &Printed) {
        let written = text(&printed.out);
        let lines: Vec<&str> = written.lines().collect();
        if lines.len() > 100 {
            self.count("timeline: 100 jobs or more".to_string());
        }
    }

    fn note_entry(&mut self, entry: &str) {
        let (task, job) = entry.split_once('.').expect("task.job");
        if job.ends_with('+') {
            self.count("plan: a carried entry".to_string());
        }
        for (name, number) in [("task", task), ("job", job.trim_end_matches('+'))] {
            if number.parse::<u32>().expect("a number") > 9 {
                self.count(format!("plan: a {name} number above 9"));
            }
        }
    }

    fn judge(&self, kinds: &[String]) {
        for kind in kinds {
            let count = self.counts.get(kind).copied().unwrap_or(0);
            assert!(count >= LEAST, "only {count} times {kind}");
        }
    }
}

/// The kinds that must be seen. No program gives 11: each lends 4,096 bytes for the table,
/// and no table has more than 519.
fn all_kinds() -> Vec<String> {
    let mut kinds: Vec<String> = [
        "plan: a row with 16 entries",
        "plan: a task number above 9",
        "plan: a job number above 9",
        "plan: a carried entry",
        "timeline: 100 jobs or more",
        "check_table: accepted",
    ]
    .map(String::from)
    .to_vec();
    for program in ["plan", "plan_table", "fly", "timeline"] {
        let of_plan = (1..=10).chain([17]);
        kinds.extend(of_plan.map(|number| format!("{program}: refused {number}")));
    }
    let of_check = (1..=8).chain([17]).chain(12..=14);
    kinds.extend(of_check.map(|number| format!("check_table: refused {number}")));
    kinds
}

fn plans_alike(input: &Path, request: &[u8]) -> [(&'static str, Printed); 4] {
    plans_as(input, request, by_planning(request))
}

/// Each program writes what is expected of it.
fn plans_as(
    input: &Path,
    request: &[u8],
    expected: [(&'static str, Printed); 4],
) -> [(&'static str, Printed); 4] {
    expected.map(|(program, expected)| {
        let printed = fed(program, input);
        let about = format!("request [{}]", hex(request));
        same(program, &printed, &expected, &about);
        (program, printed)
    })
}

fn checks_alike(files: [&Path; 2], request: &[u8], table: &[u8]) -> Printed {
    let printed = given("check_table", &files);
    let about = format!("request [{}] table [{}]", hex(request), hex(table));
    let expected = by_check_table(request, table);
    same("check_table", &printed, &expected, &about);
    printed
}

/// One request in four is crowded.
fn some_request(rng: &mut Random) -> Vec<u8> {
    if rng.chance(25) {
        generate::crowded_bytes(rng)
    } else {
        generate::request_bytes(rng)
    }
}

#[test]
fn programs_write_what_the_reference_writes() {
    let mut rng = Random::new(SEED);
    let mut seen = Seen::default();
    let mut long = 0;
    for _ in 0..REQUESTS {
        let request = some_request(&mut rng);
        let input = file("seeded.req", &request);
        let chosen = match tries_within(&request, MOST_TRIES) {
            Some(_) => planned(&request),
            None => {
                long += 1;
                planned_plainly(&request)
            }
        };
        for (program, printed) in plans_as(&input, &request, by_planners(&request, &chosen)) {
            seen.note(program, &printed);
        }
        for table in generate::table_pool(&mut rng, &request, chosen.as_ref().ok(), MOST_TRIES) {
            let other = file("seeded.table", &table);
            let printed = checks_alike([&input, &other], &request, &table);
            seen.note("check_table", &printed);
        }
    }
    for (kind, count) in &seen.counts {
        println!("{count:6} {kind}");
    }
    println!(
        "{long} beside the plain version, since their search is longer than {MOST_TRIES} tries"
    );
    seen.judge(&all_kinds());
}

/// The sheet's requests, the smallest input, and inputs longer than any request or table.
#[test]
fn sheet_and_long_inputs() {
    let mut long_request = sheet::p1();
    long_request.resize(70_000, 0);
    let table = planned(&sheet::p1()).expect("it has a table");
    let mut long_table = encode(&table);
    long_table.resize(70_000, 0);
    let requests = [
        sheet::p1(),
        sheet::p1_silent(),
        sheet::with_section(sheet::p1(), &[0]),
        sheet::with_section(sheet::p1(), &[2]),
        sheet::p2(),
        sheet::p3(),
        sheet::p5(),
        sheet::p6(),
        sheet::p7(),
        sheet::p8(),
        sheet::p9(),
        sheet::p10(),
        sheet::p11(),
        sheet::p12(),
        sheet::p12_long(),
        sheet::request(&[(10_000, 10_000, 10_000, 0)], &[]),
        Vec::new(),
        long_request,
    ];
    for request in &requests {
        let input = file("sheet.req", request);
        plans_alike(&input, request);
        for table in [&long_table, &Vec::new()] {
            let other = file("sheet.table", table);
            checks_alike([&input, &other], request, table);
        }
    }
}

/// What the plain version comes to within the tries that the programs allow; the second planner
/// would take its time.
fn planned_plainly(request: &[u8]) -> Result<Table, i32> {
    let mut out = [0; 600];
    let answer = plain::plan(request, PROGRAM_TRIES, &mut out, &mut [0; 8]);
    match usize::try_from(answer) {
        Ok(length) => Ok(decode(&out[..length]).expect("it was planned")),
        Err(_) => Err(-answer),
    }
}

/// Requests about the 10,000,000 tries that the programs allow, and far beyond: 23 from the first try
/// that is one too many.
#[test]
fn programs_allow_so_many_tries() {
    for (request, refused) in [
        (given_tries::planned_after(PROGRAM_TRIES), None),
        (given_tries::refused_after(PROGRAM_TRIES), Some(10)),
        (given_tries::planned_after(PROGRAM_TRIES + 1), Some(23)),
        (given_tries::refused_after(PROGRAM_TRIES + 1), Some(23)),
        (sheet::pigeons(11, 10, 0), Some(23)),
        (sheet::pigeons(16, 15, 0), Some(23)),
    ] {
        let chosen = planned_plainly(&request);
        assert_eq!(chosen.as_ref().err().copied(), refused);
        let input = file("tries.req", &request);
        plans_as(&input, &request, by_planners(&request, &chosen));
    }
}

/// A request that comes through a pipe in pieces is read to its end.
#[test]
fn a_request_in_pieces() {
    let request = sheet::p3();
    for (program, expected) in by_planning(&request) {
        let mut started = command(program)
            .stdin(Stdio::piped())
            .stdout(Stdio::piped())
            .stderr(Stdio::piped())
            .spawn()
            .unwrap_or_else(|reason| panic!("{program}: {reason}"));
        let mut pipe = started.stdin.take().expect("it was asked for");
        for piece in request.chunks(9) {
            pipe.write_all(piece).expect("the program reads on");
            thread::sleep(Duration::from_millis(20));
        }
        drop(pipe);
        let done = started.wait_with_output().expect("it ends");
        assert!(done.status.success(), "{program}: {}", done.status);
        let printed = Printed {
            out: done.stdout,
            err: done.stderr,
        };
        same(program, &printed, &expected, "P3 in pieces");
    }
}

/// A file that is not there is named on standard error, and nothing is said of the table.
#[test]
fn files_that_are_not_there() {
    let there = file("there.req", &sheet::p1());
    let missing = Path::new(env!("CARGO_TARGET_TMPDIR")).join("missing");
    let reason = format!("{}: No such file or directory\n", missing.display());
    let expected = Printed {
        out: Vec::new(),
        err: reason.into_bytes(),
    };
    for files in [[&missing, &there], [&there, &missing]] {
        let printed = given("check_table", &files.map(PathBuf::as_path));
        same("check_table", &printed, &expected, "a missing file");
    }
    for files in [vec![], vec![there.as_path()]] {
        let printed = given("check_table", &files);
        assert_eq!(text(&printed.out), "");
        let usage = text(&printed.err);
        assert!(
            usage.starts_with("usage: check_table REQUEST TABLE"),
            "{usage}"
        );
    }
}

/// A folder can be opened and not read: each program says so, and refuses nothing.
#[test]
fn a_folder_in_place_of_a_file() {
    let folder = Path::new(env!("CARGO_TARGET_TMPDIR"));
    let unread = |what: &str| Printed {
        out: Vec::new(),
        err: format!("{what}: Is a directory\n").into_bytes(),
    };
    for (program, _) in by_planning(&sheet::p1()) {
        let expected = unread("cannot read standard input");
        same(program, &fed(program, folder), &expected, "a folder");
    }
    let there = file("beside-a-folder.req", &sheet::p1());
    let expected = unread(&folder.display().to_string());
    for files in [[folder, &there], [&there, folder]] {
        same(
            "check_table",
            &given("check_table", &files),
            &expected,
            "a folder",
        );
    }
}

/// What a full disk does not take is told on standard error.
#[test]
fn a_full_disk() {
    let request = file("full.req", &sheet::p1());
    let told = "cannot write to standard output: No space left on device\n";
    let mut programs: Vec<_> = by_planning(&sheet::p1())
        .into_iter()
        .map(|(program, _)| command(program))
        .collect();
    let mut check = command("check_table");
    check.args([&request, &request]);
    programs.push(check);
    for mut program in programs {
        let input = fs::File::open(&request).expect("it was written");
        let full = fs::File::create("/dev/full").expect("Linux has it");
        let done = program
            .stdin(Stdio::from(input))
            .stdout(Stdio::from(full))
            .stderr(Stdio::piped())
            .output()
            .unwrap_or_else(|reason| panic!("{program:?}: {reason}"));
        assert_eq!(text(&done.stderr), told, "{program:?}");
    }
}
