//! Seeded pairs of requests joined by the subject and by the reference, and tools that only look
//! right when they join, which the comparison must catch.

use crate::common::{subject, tell};
use bus_tests::bus::Bus;
use bus_tests::comparison::{Seeded, Tally, MOST_TRIES};
use bus_tests::reference::join::joined;
use bus_tests::reference::request::{read, write};
use bus_tests::reference::{read_cycle, Reference};
use bus_tests::rounds::joining;
use bus_tests::shams::Hunt;

const PAIRS: u64 = if cfg!(feature = "linked") { 6_000 } else { 600 };

fn judge(tally: &Tally) {
    tally.judge_variety(&["join"], PAIRS / 600);
    assert!(tally.count("join", 0) > tally.requests / 2, "few files");
    assert!(tally.count("plan", 0) > tally.requests / 20, "few tables");
}

#[test]
fn every_answer_and_byte_is_the_same() {
    let seeded = Seeded {
        round: joining::round,
        seeds: &[41, 42, 43, 44],
        requests: PAIRS,
    };
    let tally = seeded.compare(subject(), judge);
    tell(format!(
        "joining: {} pairs; {} of the files planned up to {MOST_TRIES} tries, since their search is longer\n",
        tally.requests, tally.left_out
    ));
}

bus_tests::shams! {
    RaisesNoNumber,
    RaisesTheFirstNumberOnly,
    RaisesByThePairs,
    SecondFirst,
    SecondsPairsFirst,
    SecondsNumberFirst,
    TwentyBeforeEighteen,
    NineteenBeforeEighteen,
    ElevenFirst,
    JoinsAnySilence,
    WritesAGOfZero,
    CutsAtSixteen,
    SixteenTasksAreTooMany,
    DropsAPairThatStandsTwice,
    JudgesTheCycle,
    TakesBytesBehind,
    WritesBehindTheFile,
    WritesBeforeRefusing,
    AsksForOneByteMore,
}

impl Sham {
    /// The number that the lie gives in place of the reference's.
    fn number(&self, first: &[u8], second: &[u8], out: &[u8], number: i32) -> i32 {
        let (Ok(one), Ok(two)) = (read(first), read(second)) else {
            return match self.0 {
                Lie::SecondsNumberFirst => read(second).err().unwrap_or(number),
                _ => number,
            };
        };
        match self.0 {
            Lie::TwentyBeforeEighteen if one.g != two.g => 20,
            Lie::NineteenBeforeEighteen if one.pairs.len() + two.pairs.len() > 16 => 19,
            Lie::ElevenFirst if out.len() < 40 => 11,
            _ => number,
        }
    }

    /// The bytes that the lie writes in place of the reference's.
    fn file(&self, first: &[u8], second: &[u8]) -> Vec<u8> {
        let (one, two) = (read(first).expect("read"), read(second).expect("read"));
        let mut whole = joined(first, second).expect("joined");
        let (n, m) = (one.tasks.len(), one.pairs.len());
        match self.0 {
            Lie::RaisesNoNumber => {
                whole.pairs.truncate(m);
                whole.pairs.extend(&two.pairs);
            }
            Lie::RaisesTheFirstNumberOnly => {
                whole.pairs.iter_mut().skip(m).for_each(|pair| pair.1 -= n);
            }
            Lie::RaisesByThePairs => {
                whole.pairs.truncate(m);
                whole
                    .pairs
                    .extend(two.pairs.iter().map(|(a, b)| (a + m, b + m)));
            }
            Lie::SecondFirst => whole = joined(second, first).expect("joined"),
            Lie::SecondsPairsFirst => whole.pairs.rotate_left(m),
            Lie::DropsAPairThatStandsTwice => whole.pairs.dedup(),
            _ => {}
        }
        let mut bytes = write(&whole);
        if self.0 == Lie::WritesAGOfZero && whole.g == 0 {
            bytes.extend([1, 0]);
        }
        bytes
    }

    /// What the lie joins although it does not fit.
    fn joined_anyway(&self, first: &[u8], second: &[u8]) -> Option<Vec<u8>> {
        let mut one = read(first).ok()?;
        let mut two = read(second).ok()?;
        match self.0 {
            Lie::JoinsAnySilence => two.g = one.g,
            Lie::CutsAtSixteen => {
                let room = 16 - one.tasks.len();
                two.tasks.truncate(room.max(1));
                two.pairs.retain(|pair| pair.1 < room);
                one.tasks.truncate(16 - two.tasks.len());
                one.pairs.retain(|pair| pair.1 < one.tasks.len());
            }
            _ => return None,
        }
        let whole = joined(&write(&one), &write(&two)).ok()?;
        Some(write(&whole))
    }

    /// Whether the lie refuses a pair that fits, and with which number.
    fn refused_anyway(&self, first: &[u8], second: &[u8]) -> Option<i32> {
        match self.0 {
            Lie::SixteenTasksAreTooMany => {
                let whole = joined(first, second).ok()?;
                (whole.tasks.len() == 16).then_some(18)
            }
            Lie::JudgesTheCycle => read_cycle(first).and(read_cycle(second)).err(),
            _ => None,
        }
    }

    fn put(&self, bytes: &[u8], out: &mut [u8]) -> i32 {
        let needed = bytes.len() + usize::from(self.0 == Lie::AsksForOneByteMore);
        if out.len() < needed {
            if self.0 == Lie::WritesBeforeRefusing {
                out.copy_from_slice(&bytes[..out.len()]);
            }
            return -11;
        }
        if self.0 == Lie::WritesBehindTheFile {
            out.fill(0);
        }
        out[..bytes.len()].copy_from_slice(bytes);
        bytes.len() as i32
    }
}

/// The bytes without those behind the third section.
fn cut_behind(bytes: &[u8]) -> Vec<u8> {
    match (0..bytes.len())
        .rev()
        .find(|end| read(&bytes[..*end]).is_ok())
    {
        Some(end) if read(bytes) == Err(6) => bytes[..end].to_vec(),
        _ => bytes.to_vec(),
    }
}

impl Bus for Sham {
    fn join(&self, first: &[u8], second: &[u8], out: &mut [u8]) -> i32 {
        if self.0 == Lie::TakesBytesBehind {
            return Reference.join(&cut_behind(first), &cut_behind(second), out);
        }
        if let Some(number) = self.refused_anyway(first, second) {
            return -number;
        }
        match joined(first, second) {
            Ok(_) => self.put(&self.file(first, second), out),
            Err(number) => match self.joined_anyway(first, second) {
                Some(bytes) => self.put(&bytes, out),
                None => -self.number(first, second, out, number),
            },
        }
    }
}

#[test]
fn every_lie_is_caught() {
    let hunt = Hunt {
        round: joining::round,
        seed: 45,
        requests: 2_000,
    };
    hunt.catches(19, Sham);
}
