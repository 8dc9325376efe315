//! The heater link: refusals of the check, then 30, then 15.
//!
//! It is played as a history of what was sent over the line and what came of it. Neither end keeps a
//! bit: each is found in the history.

use super::dispatch::{self, State};
use super::table::{decode, Entry};
use super::{checked, request};

/// The tasks of a pair: commands go out with a, replies with b.
#[derive(Clone, Copy, Debug, PartialEq, Eq)]
pub struct Pair {
    pub a: u8,
    pub b: u8,
}

/// Which of the two are lost in a frame, if they are served in it.
#[derive(Clone, Copy, Debug, Default, PartialEq, Eq)]
pub struct Lost {
    pub command: bool,
    pub reply: bool,
}

impl Lost {
    /// What a byte tells: bit 0 of the command, bit 1 of the reply.
    pub fn told(byte: u8) -> Lost {
        Lost {
            command: byte % 2 == 1,
            reply: byte / 2 % 2 == 1,
        }
    }
}

#[derive(Clone, Copy, Debug, PartialEq, Eq)]
pub enum Event {
    /// A command or a reply with this bit is served: it arrives, or it is lost.
    Command(bool, Fate),
    Reply(bool, Fate),
    Toggled,
    Answered,
}

#[derive(Clone, Copy, Debug, PartialEq, Eq)]
pub enum Fate {
    Arrives,
    Lost,
}

impl Fate {
    fn of(lost: bool) -> Fate {
        if lost {
            Fate::Lost
        } else {
            Fate::Arrives
        }
    }
}

/// All that happened since some moment, and the bits of that moment.
#[derive(Clone, Debug)]
pub struct History {
    master: bool,
    obeyed: bool,
    pub events: Vec<Event>,
}

impl History {
    pub fn since(master: bool, obeyed: bool) -> History {
        History {
            master,
            obeyed,
            events: Vec::new(),
        }
    }

    pub fn count(&self, event: Event) -> usize {
        self.events.iter().filter(|other| **other == event).count()
    }

    /// The bit that the master sends: it was flipped with each answer.
    pub fn master(&self) -> bool {
        self.master ^ (self.count(Event::Answered) % 2 == 1)
    }

    /// The bit that the board last obeyed: that of the last command to arrive.
    pub fn obeyed(&self) -> bool {
        let arrived = self.events.iter().rev().find_map(|event| match event {
            Event::Command(bit, Fate::Arrives) => Some(*bit),
            _ => None,
        });
        arrived.unwrap_or(self.obeyed)
    }

    fn command(&mut self, fate: Fate) {
        let (sent, obeyed) = (self.master(), self.obeyed());
        self.events.push(Event::Command(sent, fate));
        if fate == Fate::Arrives && sent != obeyed {
            self.events.push(Event::Toggled);
        }
    }

    fn reply(&mut self, fate: Fate) {
        let (shown, waited_for) = (self.obeyed(), self.master());
        self.events.push(Event::Reply(shown, fate));
        if fate == Fate::Arrives && shown == waited_for {
            self.events.push(Event::Answered);
        }
    }

    /// The entries of a frame, one after the other as they are served.
    pub fn frame(&mut self, pair: Pair, served: &[Entry], lost: Lost) {
        for entry in served {
            if entry.task == i64::from(pair.a) {
                self.command(Fate::of(lost.command));
            }
            if entry.task == i64::from(pair.b) {
                self.reply(Fate::of(lost.reply));
            }
        }
    }
}

/// The dispatcher's state, the bit that the master sends and the bit that the board last obeyed.
#[derive(Clone, Copy, Debug, PartialEq, Eq)]
pub struct Link {
    pub state: State,
    pub master: bool,
    pub obeyed: bool,
}

pub fn fresh() -> Link {
    Link {
        state: dispatch::fresh(),
        master: false,
        obeyed: true,
    }
}

/// What a call answers, and the link for the next one.
pub struct Exchange {
    pub served: Vec<Entry>,
    pub toggled: bool,
    pub answered: bool,
    pub link: Link,
}

/// Serves one frame, or 1 to 8, 17, 12 to 14, 30 or 15.
pub fn serve(
    request: &[u8],
    table: &[u8],
    pair: Pair,
    lost: Lost,
    link: Link,
) -> Result<Exchange, i32> {
    checked(request, table)?;
    let pairs = request::read(request)?.pairs;
    if !pairs.contains(&(usize::from(pair.a), usize::from(pair.b))) {
        return Err(30);
    }
    let read = decode(table).ok_or(12)?;
    let (served, state) = dispatch::next_frame(&read, link.state)?;
    let mut history = History::since(link.master, link.obeyed);
    history.frame(pair, &served, lost);
    Ok(Exchange {
        served,
        toggled: history.count(Event::Toggled) > 0,
        answered: history.count(Event::Answered) > 0,
        link: Link {
            state,
            master: history.master(),
            obeyed: history.obeyed(),
        },
    })
}
