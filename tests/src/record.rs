//! Calls with their expected outcomes as bytes, and all rows as lines of C, for a caller in that
//! language (`asan.c`).
//!
//! A recorded call is the number of its row; of each argument the number in 8 bytes, or the length of
//! the buffer in 4 and what it holds; the answer; and what each buffer that may be written holds
//! afterwards. The row's number and the answer have 4 bytes. All numbers are low byte first.

use std::io::{self, Write};

use crate::bus::ROWS;
use crate::call::{Call, Outcome, Value};
use crate::row::{Kind, Row};

pub fn put(out: &mut dyn Write, call: &Call, outcome: &Outcome) -> io::Result<()> {
    let row = ROWS.iter().position(|row| row.name == call.row.name);
    let row = row.expect("every call has a row") as u32;
    out.write_all(&row.to_le_bytes())?;
    for value in &call.values {
        match value {
            Value::Number(number) => out.write_all(&number.to_le_bytes())?,
            Value::Bytes(bytes) => {
                out.write_all(&(bytes.len() as u32).to_le_bytes())?;
                out.write_all(bytes)?;
            }
        }
    }
    out.write_all(&outcome.answer.to_le_bytes())?;
    outcome
        .buffers
        .iter()
        .try_for_each(|bytes| out.write_all(bytes))
}

/// n, r or w for each argument: a number, a buffer that is read, one that may be written.
fn shape(row: &Row) -> String {
    let letter = |kind: &Kind| match kind {
        Kind::Number(..) => 'n',
        Kind::Read(_) => 'r',
        Kind::Write(..) => 'w',
    };
    row.arguments
        .iter()
        .map(|argument| letter(&argument.kind))
        .collect()
}

/// The call of the row in C.
fn in_c(row: &Row) -> String {
    let arguments = row.arguments.iter().enumerate();
    let given = arguments.map(|(place, argument)| match argument.kind {
        Kind::Number(width, _) => format!("NUMBER(uint{}_t, {place})", &width[1..]),
        _ => format!("BUFFER({place})"),
    });
    let given: Vec<String> = given.collect();
    format!("bus_{}({})", row.name, given.join(", "))
}

/// A line of C for each row: its name, its shape and its call.
pub fn rows() -> String {
    let line = |row: &Row| format!("ROW(\"{}\", \"{}\", {})\n", row.name, shape(row), in_c(row));
    ROWS.iter().map(line).collect()
}
