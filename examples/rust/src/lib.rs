//! Safe Rust over the static library: machines and worlds that are freed when they are dropped.
//!
//! ```
//! use metroheap::{Config, Heap};
//!
//! let mut heap = Heap::open(Config { pages: 4, quantum: 209, trigger: 0, every: 0 })?;
//! heap.line("a new 0 0 1")?;
//! heap.line("a write 0 0 7")?;
//! assert_eq!(heap.line("a read 0 0")?, "number 7");
//! # Ok::<(), metroheap::Error>(())
//! ```
//!
//! A world judges what another collector answers:
//!
//! ```
//! use metroheap::{Event, Judge, Reply, Verdict, World};
//!
//! let mut world = World::open()?;
//! let event = Event::New { session: 0, slot: 0, references: 0, numbers: 1 };
//! assert_eq!(world.judge(event, &Reply::Ok)?, Verdict::Right);
//! let event = Event::Read { session: 0, slot: 0, index: 0 };
//! assert_eq!(world.judge(event, &Reply::Number(3))?, Verdict::Differs(Reply::Number(0)));
//! # Ok::<(), metroheap::Error>(())
//! ```
mod deeds;
mod driver;
mod events;
mod sys;

pub use deeds::{Act, Deed, Part, Place, Tier, Units};
pub use driver::reason;
pub use events::{Event, Item, Phase, Refusal, Reply, Report, Stat};

use driver::{checked, Driver};
use std::fmt;

/// The numbers of a script's line `config`. Events are under the second rules.
#[derive(Clone, Copy, Debug, PartialEq, Eq)]
pub struct Config {
    pub pages: u32,
    pub quantum: u32,
    pub trigger: u32,
    pub every: u32,
}

/// Why a call did nothing.
#[derive(Clone, Copy, Debug, PartialEq, Eq)]
pub enum Error {
    /// The numbers are no configuration.
    BadConfig,
    /// The line is no event; `reason` says why.
    Wrong,
    /// The machine has done 2^42 events.
    Full,
    /// Memory was refused.
    NoMemory,
    /// Memory was refused for the text of a reply. If a line was asked, its event was done.
    NoText,
    /// No event was done yet.
    NoReply,
    /// Deeds weren't kept, or memory was refused for one.
    NoDeeds,
    /// A world has no controls.
    IsWorld,
    /// The library was made with another header.
    OtherVersion,
}

impl fmt::Display for Error {
    fn fmt(&self, f: &mut fmt::Formatter<'_>) -> fmt::Result {
        f.write_str(match self {
            Error::BadConfig => "the numbers are no configuration",
            Error::Wrong => "the line is no event",
            Error::Full => "as many events were done as may be",
            Error::NoMemory => "memory was refused",
            Error::NoText => "memory was refused for the text",
            Error::NoReply => "no event was done yet",
            Error::NoDeeds => "deeds were not kept, or memory was refused for one",
            Error::IsWorld => "a world has no collector and no trace",
            Error::OtherVersion => "the library was made with another header",
        })
    }
}

impl std::error::Error for Error {}

/// What a reply that was judged is.
#[derive(Clone, Debug, PartialEq, Eq)]
pub enum Verdict {
    Right,
    /// It isn't right, and this is.
    Differs(Reply),
}

/// Judges another collector. Its replies are given one after another, and what is right is done.
pub trait Judge {
    /// Does an event, and judges the reply that was given to it. Of a dump the number of items is judged.
    fn judge(&mut self, event: Event, given: &Reply) -> Result<Verdict, Error>;
}

/// A machine of a configuration. One thread at a time uses it.
#[derive(Debug)]
pub struct Heap(Driver);

impl Heap {
    pub fn open(config: Config) -> Result<Heap, Error> {
        Driver::open(config).map(Heap)
    }

    /// Does the event of a line of a script, and returns the text of its reply; an empty one for a blank line.
    pub fn line(&mut self, line: &str) -> Result<&str, Error> {
        self.0.line(line)
    }

    /// Does an event.
    pub fn step(&mut self, event: Event) -> Result<Reply, Error> {
        self.0.step(event)
    }

    /// The text of the last reply.
    pub fn last_text(&mut self) -> Result<&str, Error> {
        self.0.last_text()
    }

    pub fn last_reply(&mut self) -> Result<Reply, Error> {
        self.0.last_reply()
    }

    /// What the last event added to the trace.
    pub fn last_units(&mut self) -> Result<Units, Error> {
        self.0.last_units()
    }

    /// Whether events keep their deeds, from the next one on. It takes time and memory for each.
    pub fn tell(&mut self, tells: bool) {
        checked(self.0.tell(tells)).expect("a machine has deeds");
    }

    /// The deeds of the last event: those of its command, and then those of its quantum.
    pub fn deeds(&mut self) -> Result<Vec<Deed>, Error> {
        self.0.deeds()
    }

    /// What `Event::Stat` would answer now. It is no event.
    pub fn see_stat(&mut self) -> Stat {
        match self.0.see_stat() {
            Reply::Stat(stat) => stat,
            other => unreachable!("a stat is no {other:?}"),
        }
    }

    /// What `Event::Left` would answer now. It is no event.
    pub fn see_left(&mut self) -> u64 {
        match self.0.see_left() {
            Reply::Left(quanta) => quanta,
            other => unreachable!("quanta are no {other:?}"),
        }
    }

    /// What `Event::Report` would answer now. It is no event.
    pub fn see_report(&mut self, window: u64) -> Report {
        match self.0.see_report(window) {
            Reply::Report(report) => report,
            other => unreachable!("a report is no {other:?}"),
        }
    }

    /// Makes room for the next `events` events, and for as many each time that the trace is forgotten. Then memory is
    /// refused for none of them, unless it is a dump. It may be refused for their texts and deeds.
    pub fn reserve(&mut self, events: usize) -> Result<(), Error> {
        self.0.reserve(events)
    }

    /// Forgets the trace, from which reports count on then.
    pub fn forget(&mut self) {
        checked(self.0.forget()).expect("a machine has a trace");
    }
}

impl Judge for Heap {
    fn judge(&mut self, event: Event, given: &Reply) -> Result<Verdict, Error> {
        self.0.judge(event, given)
    }
}

/// A world: the heap that never collects. It has no controls, but takes any reply to one as right.
#[derive(Debug)]
pub struct World(Driver);

impl World {
    pub fn open() -> Result<World, Error> {
        Driver::open_world().map(World)
    }

    /// Does the command of a line of a script, and returns the text of its reply; an empty one for a blank line.
    pub fn line(&mut self, line: &str) -> Result<&str, Error> {
        self.0.line(line)
    }

    /// Does a command.
    pub fn step(&mut self, event: Event) -> Result<Reply, Error> {
        self.0.step(event)
    }

    /// The text of the last reply.
    pub fn last_text(&mut self) -> Result<&str, Error> {
        self.0.last_text()
    }

    pub fn last_reply(&mut self) -> Result<Reply, Error> {
        self.0.last_reply()
    }
}

impl Judge for World {
    fn judge(&mut self, event: Event, given: &Reply) -> Result<Verdict, Error> {
        self.0.judge(event, given)
    }
}
