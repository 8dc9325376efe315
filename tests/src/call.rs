//! A call as data: its row, and what each of its arguments holds before it.

use crate::bus::ROWS;
use crate::row::Row;

#[derive(Clone, Debug, PartialEq, Eq)]
pub enum Value {
    Number(u64),
    Bytes(Vec<u8>),
}

#[derive(Clone)]
pub struct Call {
    pub row: &'static Row,
    pub values: Vec<Value>,
}

/// The answer, and the content of the buffers that the call may write, in their order.
#[derive(Clone, Debug, PartialEq, Eq)]
pub struct Outcome {
    pub answer: i32,
    pub buffers: Vec<Vec<u8>>,
}

impl Call {
    pub fn of(name: &str, values: Vec<Value>) -> Call {
        let row = ROWS.iter().find(|row| row.name == name);
        let row = row.expect("the call has a row");
        assert_eq!(values.len(), row.arguments.len());
        Call { row, values }
    }

    /// The number that the argument of this name holds.
    pub fn number(&self, name: &str) -> u64 {
        let mut named = self.row.arguments.iter().zip(&self.values);
        match named.find(|(argument, _)| argument.name == name) {
            Some((_, Value::Number(number))) => *number,
            _ => panic!("{} has no number {name}", self.row.name),
        }
    }

    /// The call in one line, bytes in hexadecimal.
    pub fn describe(&self) -> String {
        let mut words = vec![self.row.name.to_string()];
        for (argument, value) in self.row.arguments.iter().zip(&self.values) {
            words.push(match value {
                Value::Number(number) => format!("{} {number}", argument.name),
                Value::Bytes(bytes) => format!("{} [{}]", argument.name, hex(bytes)),
            });
        }
        words.join(" ")
    }
}

pub fn hex(bytes: &[u8]) -> String {
    let words: Vec<String> = bytes.iter().map(|byte| format!("{byte:02X}")).collect();
    words.join(" ")
}
