//! Tools that only look right: the reference with one lie each. The comparison must catch every one.

use std::fmt::Debug;

use crate::bus::Bus;
use crate::comparison::{Comparison, Round};

/// The lies of one kind of tool.
pub trait Lies: Copy + Debug + 'static {
    const NONE: Self;
    const ALL: &'static [Self];
}

/// The lies of one kind of tool by their names, as `Lie`, and the tool, `Sham`. What it lies about it
/// answers in its `impl Bus`.
#[macro_export]
macro_rules! shams {
    ($($lie:ident),* $(,)?) => {
        #[derive(Clone, Copy, Debug, PartialEq, Eq)]
        enum Lie {
            None,
            $($lie),*
        }

        impl $crate::shams::Lies for Lie {
            const NONE: Lie = Lie::None;
            const ALL: &'static [Lie] = &[$(Lie::$lie),*];
        }

        /// The reference with one lie.
        struct Sham(Lie);
    };
}

/// The rounds that are to catch every tool of a kind.
#[derive(Clone, Copy)]
pub struct Hunt {
    pub round: Round,
    pub seed: u64,
    pub requests: u64,
}

/// Rounds in which the tool without a lie must pass.
const HONEST_REQUESTS: u64 = 300;

impl Hunt {
    fn hunted(&self, bus: &dyn Bus) -> (u64, Result<(), String>) {
        let mut comparison = Comparison::new(bus, self.seed);
        let done = comparison.rounds(self.round, self.requests);
        (comparison.tally.requests, done)
    }

    /// There are so many lies and each is caught. It is the lie that is: the same tool without one
    /// passes.
    pub fn catches<Lie: Lies, Sham: Bus>(&self, lies: usize, sham: fn(Lie) -> Sham) {
        assert_eq!(Lie::ALL.len(), lies);
        for lie in Lie::ALL {
            let (after, done) = self.hunted(&sham(*lie));
            println!("{lie:?} after {after} requests: {done:?}");
            assert!(done.is_err(), "{lie:?} was not caught in {after} requests");
        }
        let requests = HONEST_REQUESTS;
        let (_, done) = Hunt { requests, ..*self }.hunted(&sham(Lie::NONE));
        assert_eq!(done, Ok(()), "the tool without a lie");
    }
}
