//! Making a call with guard bytes around every buffer that it is lent.

use crate::bus::Bus;
use crate::call::{Call, Outcome, Value};
use crate::row::{Handed, Kind};

const GUARD: usize = 40;

fn guard_byte(place: usize) -> u8 {
    (place * 37 + 11) as u8
}

/// A buffer with guard bytes on both sides.
struct Lent {
    all: Vec<u8>,
}

impl Lent {
    fn of(content: &[u8]) -> Lent {
        let mut all: Vec<u8> = (0..GUARD).map(guard_byte).collect();
        all.extend_from_slice(content);
        all.extend((0..GUARD).map(guard_byte));
        Lent { all }
    }

    fn end(&self) -> usize {
        self.all.len() - GUARD
    }

    fn bytes(&self) -> &[u8] {
        &self.all[GUARD..self.end()]
    }

    fn bytes_mut(&mut self) -> &mut [u8] {
        let end = self.end();
        &mut self.all[GUARD..end]
    }

    fn guarded(&self) -> bool {
        let before = &self.all[..GUARD];
        let behind = &self.all[self.end()..];
        (0..GUARD).all(|place| before[place] == guard_byte(place) && before[place] == behind[place])
    }
}

/// An argument while the call is made.
enum Held {
    Number(u64),
    Read(Lent),
    Write(Lent),
}

impl Held {
    fn of(kind: &Kind, value: &Value) -> Held {
        match (kind, value) {
            (Kind::Number(..), Value::Number(number)) => Held::Number(*number),
            (Kind::Read(_), Value::Bytes(bytes)) => Held::Read(Lent::of(bytes)),
            (Kind::Write(..), Value::Bytes(bytes)) => Held::Write(Lent::of(bytes)),
            _ => panic!("a value of another kind than its argument"),
        }
    }

    fn handed(&mut self) -> Handed<'_> {
        match self {
            Held::Number(number) => Handed::Number(*number),
            Held::Read(lent) => Handed::Read(lent.bytes()),
            Held::Write(lent) => Handed::Write(lent.bytes_mut()),
        }
    }

    /// An error if anything was changed that may never be.
    fn judge(&self, before: &Value) -> Result<(), String> {
        match (self, before) {
            (Held::Read(lent), Value::Bytes(bytes)) if !lent.guarded() || lent.bytes() != bytes => {
                Err("an input, or a byte beside it, was changed".to_string())
            }
            (Held::Write(lent), _) if !lent.guarded() => {
                Err("a byte outside a lent buffer was changed".to_string())
            }
            _ => Ok(()),
        }
    }
}

/// Makes the call; an error if anything outside the buffers it may write was changed.
pub fn run(bus: &dyn Bus, call: &Call) -> Result<Outcome, String> {
    let kinds = call.row.arguments.iter().map(|argument| &argument.kind);
    let both = kinds.zip(&call.values);
    let mut held: Vec<Held> = both.map(|(kind, value)| Held::of(kind, value)).collect();
    let answer = (call.row.make)(bus, held.iter_mut().map(Held::handed).collect());
    for (held, before) in held.iter().zip(&call.values) {
        held.judge(before)?;
    }
    let written = held.iter().filter_map(|held| match held {
        Held::Write(lent) => Some(lent.bytes().to_vec()),
        _ => None,
    });
    Ok(Outcome {
        answer,
        buffers: written.collect(),
    })
}
