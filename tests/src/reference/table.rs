//! Table files: form (refusal 12), reading and writing.

use super::cycle::Cycle;

#[derive(Clone, Copy, Debug, PartialEq, Eq, PartialOrd, Ord)]
pub struct Entry {
    pub task: i64,
    pub job: i64,
    pub carry: bool,
}

#[derive(Clone, Debug, PartialEq, Eq)]
pub struct Table {
    pub f: i64,
    pub h: i64,
    pub rows: Vec<Vec<Entry>>,
}

impl Entry {
    pub fn job_byte(&self) -> u8 {
        self.job as u8 + if self.carry { 128 } else { 0 }
    }
}

fn take<'a>(rest: &mut &'a [u8], count: usize) -> Option<&'a [u8]> {
    if rest.len() < count {
        return None;
    }
    let (front, behind) = rest.split_at(count);
    *rest = behind;
    Some(front)
}

fn take_number(rest: &mut &[u8]) -> Option<i64> {
    let bytes = take(rest, 2)?;
    Some(i64::from(bytes[0]) + 256 * i64::from(bytes[1]))
}

fn take_entry(rest: &mut &[u8]) -> Option<Entry> {
    let bytes = take(rest, 2)?;
    if bytes[0] > 15 {
        return None;
    }
    Some(Entry {
        task: i64::from(bytes[0]),
        job: i64::from(bytes[1] % 128),
        carry: bytes[1] >= 128,
    })
}

fn take_row(rest: &mut &[u8]) -> Option<Vec<Entry>> {
    let count = take(rest, 1)?[0];
    if count > 16 {
        return None;
    }
    let mut row = Vec::new();
    for _ in 0..count {
        row.push(take_entry(rest)?);
    }
    let rising = row.windows(2).all(|two| two[0].task < two[1].task);
    rising.then_some(row)
}

/// The table in the bytes, or nothing if they have not the form.
pub fn decode(bytes: &[u8]) -> Option<Table> {
    let mut rest = bytes;
    if take(&mut rest, 1)?[0] != 2 {
        return None;
    }
    let f = take_number(&mut rest)?;
    let h = take_number(&mut rest)?;
    let row_count = take_number(&mut rest)?;
    let sizes_hold = (1..=10_000).contains(&h) && (1..=256).contains(&row_count);
    if !sizes_hold || row_count * f != h {
        return None;
    }
    let mut rows = Vec::new();
    for _ in 0..row_count {
        rows.push(take_row(&mut rest)?);
    }
    rest.is_empty().then_some(Table { f, h, rows })
}

/// The bytes of a table (nothing is judged).
pub fn encode(table: &Table) -> Vec<u8> {
    let mut bytes = vec![2];
    for number in [table.f, table.h, table.rows.len() as i64] {
        bytes.extend_from_slice(&(number as u16).to_le_bytes());
    }
    for row in &table.rows {
        bytes.push(row.len() as u8);
        for entry in row {
            bytes.push(entry.task as u8);
            bytes.push(entry.job_byte());
        }
    }
    bytes
}

/// The table of a plan.
pub fn of_plan(cycle: &Cycle, f: i64, frames: &[i64]) -> Table {
    let count = cycle.h / f;
    let mut rows = vec![Vec::new(); count as usize];
    for (job, k) in cycle.jobs.iter().zip(frames) {
        rows[(k % count) as usize].push(Entry {
            task: job.task as i64,
            job: job.number,
            carry: *k >= count,
        });
    }
    rows.iter_mut().for_each(|row| row.sort());
    Table {
        f,
        h: cycle.h,
        rows,
    }
}
