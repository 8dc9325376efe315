//! What the programs print about a table, from docs/FORMATS.md.

use super::cycle::Cycle;
use super::table::{Entry, Table};

fn named(entry: &Entry) -> String {
    let mark = if entry.carry { "+" } else { "" };
    format!(" {}.{}{}", entry.task, entry.job, mark)
}

/// The listing of a table: a line of sizes, then a line for each row.
pub fn of_table(cycle: &Cycle, table: &Table) -> String {
    let mut text = format!(
        "frame {} cycle {} rows {}\n",
        table.f,
        table.h,
        table.rows.len()
    );
    for (number, row) in table.rows.iter().enumerate() {
        let busy: i64 = row
            .iter()
            .map(|entry| cycle.request.tasks[entry.task as usize].c)
            .sum();
        let entries: String = row.iter().map(named).collect();
        text.push_str(&format!("{number} {busy}{entries}\n"));
    }
    text
}

const CYCLES_FLOWN: usize = 3;

/// A row's entries in cycle q, each with the cycle of its job; there is none before cycle 0.
fn served(row: &[Entry], q: usize) -> String {
    row.iter()
        .filter(|entry| q > 0 || !entry.carry)
        .map(|entry| {
            let cycle_of_job = if entry.carry { q - 1 } else { q };
            format!(" {}.{}@{cycle_of_job}", entry.task, entry.job)
        })
        .collect()
}

/// The first three cycles of a table: a line for each frame.
pub fn of_flight(table: &Table) -> String {
    let mut text = String::new();
    let mut m = 0;
    for q in 0..CYCLES_FLOWN {
        for row in &table.rows {
            let start = m * table.f;
            text.push_str(&format!("frame {m} start {start}{}\n", served(row, q)));
            m += 1;
        }
    }
    text
}

pub fn of_refusal(number: i32) -> String {
    format!("refused {number}\n")
}
