//! What follows from all rows: the calls that a tool has, the rows as data, and each call as data. And
//! the sizes of the buffers that a caller lends.

use std::ops::Range;

use crate::call::{Call, Value};
use crate::fuzzer::Fuzzer;
use crate::reference;
use crate::row::{Argument, Change, Handed, Kind, Row};
use crate::rows::{argument_type, every_call};

/// Bytes of dispatcher state that a caller lends.
pub const STATE_LEN: usize = 64;
/// Bytes of a state that are in use: the row, the mark and a count for each of 16 tasks.
pub const STATE_USED: usize = 35;
/// Tasks that have a count in a state.
pub const TASKS: usize = 16;
/// Bytes of the 16 places for served entries.
pub const ENTRIES_LEN: usize = 32;
/// Bytes of a count of tries.
pub const TRIES_LEN: usize = 8;
/// Bytes of a draft: the frame length, 128 frames and 256 loads.
pub const DRAFT_LEN: usize = 770;
/// Bytes of a timer: a dispatcher's state, control, status, and free ones.
pub const TIMER_LEN: usize = 72;
/// Where control and status stand in a timer, and how many of its bytes from the front are in use, those of
/// the state among them.
pub const CONTROL_AT: usize = 64;
pub const STATUS_AT: usize = 65;
pub const TIMER_USED: usize = 66;
/// Registers of a timer.
pub const REGISTERS: usize = 8;
/// Bytes of a heater that a caller lends: a dispatcher's state, 4 of the link, and 4 that are free.
pub const HEATER_LEN: usize = 72;
/// Where a heater has the master's bit, the bit last obeyed, toggled and answered.
pub const LINK_BYTES: Range<usize> = 64..68;
/// Bytes of a heater up to the last that is in use.
pub const HEATER_USED: usize = 68;
/// Refusal of a buffer that is too short, or of bytes that are no state, no timer or no heater.
pub const BAD_BUFFER: i32 = 99;

/// Bytes of the four counts of phases.
pub const COUNTS_LEN: usize = 8;

/// Bytes of a record of the timeline: task, job, release, due and frame.
pub const RECORD_LEN: usize = 8;

/// Where the count of a task stands in a state.
pub fn count_bytes(task: usize) -> Range<usize> {
    3 + 2 * task..5 + 2 * task
}

/// The counts that a state holds.
pub fn counts(state: &[u8]) -> [u16; TASKS] {
    std::array::from_fn(|task| {
        let two = &state[count_bytes(task)];
        u16::from_le_bytes([two[0], two[1]])
    })
}

/// Puts the four counts of phases, to a table, 9, 10 and 23, to the front of their buffer.
pub fn put_counts(four: [u16; 4], bytes: &mut [u8]) {
    for (place, count) in four.iter().enumerate() {
        bytes[2 * place..2 * place + 2].copy_from_slice(&count.to_le_bytes());
    }
}

/// Where the count stands of the task that the call names.
fn own_count(call: &Call) -> Range<usize> {
    count_bytes(call.number("task") as usize)
}

/// The byte of a timer that a write to the register changes.
fn written_register(call: &Call) -> Range<usize> {
    match call.number("address") {
        0 => CONTROL_AT..CONTROL_AT + 1,
        1 => STATUS_AT..STATUS_AT + 1,
        _ => 0..0,
    }
}

fn status_of_timer(_: &Call) -> Range<usize> {
    STATUS_AT..STATUS_AT + 1
}

/// The type of an argument of a call that is not made yet: of a buffer what it holds before.
macro_rules! content_type {
    (read) => {
        &[u8]
    };
    (write) => {
        &[u8]
    };
    ($width:ident) => {
        $width
    };
}

macro_rules! content {
    (read $bytes:ident) => {
        Value::Bytes($bytes.to_vec())
    };
    (write $bytes:ident) => {
        Value::Bytes($bytes.to_vec())
    };
    ($width:ident $number:ident) => {
        Value::Number(u64::from($number))
    };
}

macro_rules! kind {
    (read $drawn:expr) => {
        Kind::Read($drawn)
    };
    (write $drawn:expr, $change:expr) => {
        Kind::Write($drawn, $change)
    };
    ($width:ident $drawn:expr) => {
        Kind::Number(stringify!($width), $drawn)
    };
}

fn next<'a>(handed: &mut impl Iterator<Item = Handed<'a>>) -> Handed<'a> {
    handed.next().expect("every argument is handed over")
}

/// The next argument of those that are handed over.
macro_rules! taken {
    (read $handed:ident) => {
        next(&mut $handed).read()
    };
    (write $handed:ident) => {
        next(&mut $handed).write()
    };
    ($width:ident $handed:ident) => {
        $width::try_from(next(&mut $handed).number()).expect("it has that width")
    };
}

macro_rules! declare {
    ($(
        $(#[$doc:meta])*
        $call:ident($($name:ident: $kind:ident($($says:tt)*),)*) refuses [$($number:literal),*];
    )*) => {
        /// A tool with every call of the library. An answer below 0 is a refusal, its number negated.
        /// What a tool does not say of itself it answers as the reference does.
        pub trait Bus: Sync {
            $(
                $(#[$doc])*
                fn $call(&self, $($name: argument_type!($kind)),*) -> i32 {
                    reference::answer(reference::calls::$call($($name),*))
                }
            )*

            /// The answer of `plan` with every try allowed; the count is left aside.
            fn plan_freely(&self, request: &[u8], out: &mut [u8]) -> i32 {
                self.plan(request, u64::MAX, out, &mut [0; TRIES_LEN])
            }
        }

        /// All rows.
        pub static ROWS: &[Row] = &[$(Row {
            name: stringify!($call),
            arguments: &[$(Argument {
                name: stringify!($name),
                kind: kind!($kind $($says)*),
            }),*],
            refusals: &[$($number),*],
            make: |bus, handed| {
                let mut handed = handed.into_iter();
                $(let $name = taken!($kind handed);)*
                bus.$call($($name),*)
            },
        }),*];

        /// A call, with what its buffers hold before it.
        impl Call {
            $(
                $(#[$doc])*
                pub fn $call($($name: content_type!($kind)),*) -> Call {
                    Call::of(stringify!($call), vec![$(content!($kind $name)),*])
                }
            )*
        }
    };
}

every_call!(declare);
