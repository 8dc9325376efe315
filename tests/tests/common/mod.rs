//! What several test files share.
#![allow(dead_code)]

pub mod drafts;
pub mod phases;

use std::fs;
use std::io::{stdout, Write};
use std::path::PathBuf;

use bus_tests::bus::Bus;
use bus_tests::reference::table::{encode, Entry, Table};
use bus_tests::reference::Reference;

type Subject = (&'static str, &'static dyn Bus);

#[cfg(feature = "linked")]
fn linked() -> Option<Subject> {
    Some(("library", &bus_tests::library::Library))
}

#[cfg(not(feature = "linked"))]
fn linked() -> Option<Subject> {
    None
}

/// The reference and, when it is linked, the library.
pub fn subjects() -> Vec<Subject> {
    let reference: Subject = ("reference", &Reference);
    [reference].into_iter().chain(linked()).collect()
}

/// What the comparisons judge: the library when it is linked, else the reference itself.
pub fn subject() -> &'static dyn Bus {
    subjects().last().expect("there is one").1
}

fn entry(word: &str) -> Entry {
    let (name, carry) = match word.strip_suffix('+') {
        Some(name) => (name, true),
        None => (word, false),
    };
    let (task, job) = name.split_once('.').expect("task.job");
    Entry {
        task: task.parse().expect("a task number"),
        job: job.parse().expect("a job number"),
        carry,
    }
}

/// Table bytes from rows written like `0.0 1.0 / 2.0+ / `.
pub fn table(f: i64, h: i64, rows: &str) -> Vec<u8> {
    encode(&Table {
        f,
        h,
        rows: rows
            .split('/')
            .map(|row| row.split_whitespace().map(entry).collect())
            .collect(),
    })
}

/// The table that a plan call gives, with the bytes behind it tested, or the refusal.
pub fn plan(bus: &dyn Bus, request: &[u8]) -> Result<Vec<u8>, i32> {
    let mut out = vec![0xC3; 700];
    let answer = bus.plan_freely(request, &mut out);
    let length = answer.max(0) as usize;
    assert!(out[length..].iter().all(|byte| *byte == 0xC3));
    if answer < 0 {
        return Err(-answer);
    }
    out.truncate(length);
    Ok(out)
}

/// The request is planned as this table, and check and rewrite agree with it.
pub fn plans_as(request: &[u8], f: i64, h: i64, rows: &str) {
    let expected = table(f, h, rows);
    for (name, bus) in subjects() {
        assert_eq!(plan(bus, request), Ok(expected.clone()), "{name}");
        assert_eq!(bus.check(request, &expected), 0, "{name}");
        let mut out = vec![0; expected.len()];
        let length = bus.rewrite(request, &expected, &mut out);
        assert_eq!(length as usize, expected.len(), "{name}");
        assert_eq!(out, expected, "{name}");
    }
}

pub fn refused(request: &[u8], number: i32) {
    for (name, bus) in subjects() {
        assert_eq!(plan(bus, request), Err(number), "{name}");
        // A refusal by the planner does not look at the room.
        assert_eq!(bus.plan_freely(request, &mut []), -number, "{name}");
    }
}

pub fn checks_as(request: &[u8], table: &[u8], answer: i32) {
    for (name, bus) in subjects() {
        assert_eq!(bus.check(request, table), answer, "{name}");
    }
}

fn examples_folder() -> PathBuf {
    PathBuf::from(concat!(env!("CARGO_MANIFEST_DIR"), "/../examples"))
}

/// The names of the files in the folder `examples`.
pub fn examples() -> Vec<String> {
    fs::read_dir(examples_folder())
        .expect("the folder can be read")
        .map(|file| file.expect("it can be listed").file_name())
        .map(|name| name.into_string().expect("plain names"))
        .collect()
}

/// The bytes of a file in the folder `examples`.
pub fn example(name: &str) -> Vec<u8> {
    fs::read(examples_folder().join(name)).unwrap_or_else(|reason| panic!("{name}: {reason}"))
}

/// A line past the capture of `cargo test`, so that every run shows it.
pub fn tell(line: String) {
    stdout()
        .write_all(line.as_bytes())
        .expect("a line is written");
}

/// Says how many requests were compared and how many not, since their search needs more tries
/// than `most`.
pub fn tell_left_out(what: &str, compared: u64, left_out: u64, most: u64) {
    tell(format!(
        "{what}: {compared} requests, {left_out} more left out as too long (above {most} tries)\n"
    ));
}

/// Says how many requests were compared whole, and how many with no more tries allowed than `most`,
/// since their search needs more.
pub fn tell_cut(what: &str, compared: u64, cut: u64, most: u64) {
    tell(format!(
        "{what}: {compared} requests, {cut} more up to {most} tries, since their search is longer\n"
    ));
}
