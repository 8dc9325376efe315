//! What the row of a call says, and how a call is made from it.
//!
//! The rows themselves stand in `rows.rs`. Guards, descriptions, comparisons, fuzzing and the
//! sanitizer's run know no call by its name: all they need is in its row.

use std::iter;
use std::ops::Range;

use crate::bus::{Bus, BAD_BUFFER};
use crate::call::Call;
use crate::fuzzer::Fuzzer;

pub struct Row {
    pub name: &'static str,
    pub arguments: &'static [Argument],
    /// The numbers that the call may refuse with.
    pub refusals: &'static [i32],
    /// Makes the call with what is handed to it, in the order of the arguments.
    pub make: fn(&dyn Bus, Vec<Handed>) -> i32,
}

pub struct Argument {
    pub name: &'static str,
    pub kind: Kind,
}

/// A number with the Rust name of its width, a buffer that is only read, or one that may be written;
/// each with the function that draws it for the fuzzer.
pub enum Kind {
    Number(&'static str, fn(&mut Fuzzer) -> u64),
    Read(fn(&mut Fuzzer) -> Vec<u8>),
    Write(fn(&mut Fuzzer) -> Vec<u8>, Change),
}

/// Which bytes of a buffer a call may change. A refused call changes none, save those of `Always`.
pub enum Change {
    /// As many from the front as is answered.
    Answered,
    /// As many places of so many bytes from the front as is answered.
    Places(usize),
    /// So many from the front.
    First(usize),
    /// So many from the front with every answer, unless the buffer is too short.
    Always(usize),
    /// Those that the call's own numbers name.
    Part(fn(&Call) -> Range<usize>),
    /// The same in several parts of the buffer.
    Parts(fn(&Call) -> Vec<Range<usize>>),
}

impl Change {
    /// The parts of the buffer that the call may change, by its answer.
    pub fn parts(&self, call: &Call, answer: i32) -> Vec<Range<usize>> {
        let front = match self {
            Change::Always(count) if answer != -BAD_BUFFER => *count,
            _ if answer < 0 => 0,
            Change::Answered => answer as usize,
            Change::Places(length) => length * answer as usize,
            Change::First(count) | Change::Always(count) => *count,
            Change::Part(named) => return vec![named(call)],
            Change::Parts(named) => return named(call),
        };
        iter::once(0..front).collect()
    }
}

/// An argument as a call gets it.
pub enum Handed<'a> {
    Number(u64),
    Read(&'a [u8]),
    Write(&'a mut [u8]),
}

impl<'a> Handed<'a> {
    pub fn number(self) -> u64 {
        match self {
            Handed::Number(number) => number,
            _ => panic!("a buffer for a number"),
        }
    }

    pub fn read(self) -> &'a [u8] {
        match self {
            Handed::Read(bytes) => bytes,
            _ => panic!("not a buffer that is only read"),
        }
    }

    pub fn write(self) -> &'a mut [u8] {
        match self {
            Handed::Write(bytes) => bytes,
            _ => panic!("not a buffer that may be written"),
        }
    }
}
