//! Keepers of the boot entries of a machine.

use crate::entry::EntryNumber;
use crate::error::{Error, Fault, Refusal};
use crate::frame::{self, Request};
use crate::library::{Event, Handle, RawReply, WordOf};
use crate::numbers::*;
use crate::vars::{entry_number, Plan};
use std::fmt;

/// What came of a request.
#[derive(Clone, Copy, Debug, PartialEq, Eq)]
#[non_exhaustive]
pub enum Outcome {
    /// It was carried out.
    Done,
    /// The entry to add is there already.
    Exists,
    /// The entry isn't there.
    Missing,
    /// The order has a number twice.
    OrderRepeats,
    /// The order has a number without an entry.
    OrderUnknown,
    /// Each number has an entry already.
    NoFree,
    /// An outcome that this crate doesn't know.
    Other(u32),
}

impl fmt::Display for Outcome {
    /// Its word, as the line of a reply has it.
    fn fmt(&self, formatter: &mut fmt::Formatter<'_>) -> fmt::Result {
        match self {
            Outcome::Other(number) => formatter.write_str(&crate::word(WordOf::Outcome, *number)),
            known => write!(formatter, "{known:?}"),
        }
    }
}

/// What is answered to an event. `entry` is that which was added, if the request left its number open, and
/// `next_number` that of the request that is to be applied next.
#[derive(Clone, Debug, PartialEq, Eq)]
#[non_exhaustive]
#[allow(missing_docs)]
pub enum Reply {
    /// What was delivered isn't a frame, for this, and its option isn't one, for that.
    #[non_exhaustive]
    Malformed { fault: Fault, option: Option<Refusal> },
    /// The request was applied before.
    #[non_exhaustive]
    Repeat { outcome: Outcome, entry: Option<EntryNumber> },
    /// The request was applied before, and its outcome isn't kept any more.
    Old,
    /// The number is too far ahead of the next one.
    #[non_exhaustive]
    Ahead { next_number: u32 },
    /// Another request of this number waits.
    Conflict,
    /// The request waits for those before it.
    #[non_exhaustive]
    Waiting { next_number: u32 },
    /// The request was applied.
    #[non_exhaustive]
    Applied { outcome: Outcome, entry: Option<EntryNumber>, next_number: u32 },
    /// A plan of this many options is prepared.
    Prepared(usize),
    /// A plan was prepared before, and stays.
    AlreadyPrepared,
    /// The plan that was prepared.
    Plan(Plan),
    /// No plan is prepared.
    NothingPrepared,
    /// What waited and what was prepared is forgotten.
    #[non_exhaustive]
    Restarted { next_number: u32 },
    /// A reply that this crate doesn't know.
    Other(u32),
}

impl Reply {
    pub(crate) fn of(told: &RawReply, numbers: Vec<u16>) -> Reply {
        let (outcome, entry, next_number) = (outcome(told.outcome), entry_number(told.entry), told.next_number);
        match told.kind {
            REPLY_MALFORMED => {
                Reply::Malformed { fault: Fault::from(told.fault), option: Refusal::if_any(&told.option_fault) }
            }
            REPLY_REPEAT => Reply::Repeat { outcome, entry },
            REPLY_OLD => Reply::Old,
            REPLY_AHEAD => Reply::Ahead { next_number },
            REPLY_CONFLICT => Reply::Conflict,
            REPLY_WAITING => Reply::Waiting { next_number },
            REPLY_APPLIED => Reply::Applied { outcome, entry, next_number },
            REPLY_PREPARED => Reply::Prepared(told.count),
            REPLY_ALREADY_PREPARED => Reply::AlreadyPrepared,
            REPLY_PLAN => Reply::Plan(Plan::of(told.plan_next, numbers)),
            REPLY_NOTHING_PREPARED => Reply::NothingPrepared,
            REPLY_RESTARTED => Reply::Restarted { next_number },
            other => Reply::Other(other),
        }
    }
}

impl fmt::Display for Reply {
    /// Its line, as `bootkeep run` prints it.
    fn fmt(&self, formatter: &mut fmt::Formatter<'_>) -> fmt::Result {
        match self {
            Reply::Malformed { fault, option } => write_malformed(formatter, *fault, option),
            Reply::Repeat { outcome, entry } => {
                formatter.write_str("repeat ")?;
                write_outcome(formatter, *outcome, *entry)
            }
            Reply::Old => formatter.write_str("old"),
            Reply::Ahead { next_number } => write!(formatter, "ahead {next_number}"),
            Reply::Conflict => formatter.write_str("conflict"),
            Reply::Waiting { next_number } => write!(formatter, "waiting {next_number}"),
            Reply::Applied { outcome, entry, next_number } => {
                formatter.write_str("applied ")?;
                write_outcome(formatter, *outcome, *entry)?;
                write!(formatter, " {next_number}")
            }
            Reply::Prepared(count) => write!(formatter, "prepared {count}"),
            Reply::AlreadyPrepared => formatter.write_str("already prepared"),
            Reply::Plan(plan) => plan.fmt(formatter),
            Reply::NothingPrepared => formatter.write_str("nothing prepared"),
            Reply::Restarted { next_number } => write!(formatter, "restarted {next_number}"),
            Reply::Other(kind) => write!(formatter, "reply {kind}"),
        }
    }
}

fn write_outcome(formatter: &mut fmt::Formatter<'_>, outcome: Outcome, entry: Option<EntryNumber>) -> fmt::Result {
    write!(formatter, "{outcome}")?;
    match entry {
        Some(entry) => write!(formatter, " {entry}"),
        None => Ok(()),
    }
}

/// Writes what is malformed: the faults without the families of their names.
fn write_malformed(formatter: &mut fmt::Formatter<'_>, fault: Fault, option: &Option<Refusal>) -> fmt::Result {
    write!(formatter, "malformed {}", word(fault, "Frame"))?;
    if let Some(refusal) = option {
        write!(formatter, " {}", word(refusal.fault, "Option"))?;
        if let (Some(place), Some((inner, Some(inner_place)))) = (refusal.place, refusal.within) {
            write!(formatter, " {place} {} {inner_place}", word(inner, "Path"))?;
        }
    }
    Ok(())
}

/// The word of a fault without that of its family.
fn word(fault: Fault, family: &str) -> String {
    let word = fault.to_string();
    word.strip_prefix(family).unwrap_or(&word).to_owned()
}

fn outcome(number: u32) -> Outcome {
    match number {
        OUTCOME_DONE => Outcome::Done,
        OUTCOME_EXISTS => Outcome::Exists,
        OUTCOME_MISSING => Outcome::Missing,
        OUTCOME_ORDER_REPEATS => Outcome::OrderRepeats,
        OUTCOME_ORDER_UNKNOWN => Outcome::OrderUnknown,
        OUTCOME_NO_FREE => Outcome::NoFree,
        other => Outcome::Other(other),
    }
}

/// What keeps the boot entries of a machine. It writes nothing: store [`Keeper::set`] after each event that a loss of
/// power must not undo. It is closed when it is dropped, and may be sent to another thread. After an event that was
/// answered by an error nothing has happened, and the same event may come again.
pub struct Keeper(Handle);

impl fmt::Debug for Keeper {
    fn fmt(&self, formatter: &mut fmt::Formatter<'_>) -> fmt::Result {
        formatter.debug_struct("Keeper").finish_non_exhaustive()
    }
}

impl Keeper {
    /// A keeper of the variables of a set.
    ///
    /// # Errors
    ///
    /// A fault `Set..`, at the record that has it; otherwise a fault `Vars..`; [`Error::NoMemory`].
    pub fn open(set: &[u8]) -> Result<Keeper, Error> {
        Ok(Keeper(Handle::open(set)?))
    }

    /// These bytes are delivered, which may be a frame.
    ///
    /// # Errors
    ///
    /// [`Error::NoMemory`], as of each event.
    pub fn deliver(&mut self, frame: &[u8]) -> Result<Reply, Error> {
        self.event(&Event::Deliver(frame))
    }

    /// The request is delivered with the number of the one that is to be applied next.
    ///
    /// # Errors
    ///
    /// Those of [`frame::make`].
    pub fn request(&mut self, request: Request<'_>) -> Result<Reply, Error> {
        let number = self.next_number()?;
        self.deliver(&frame::make(number, request)?)
    }

    /// A boot is prepared: its plan is made, and BootNext is deleted.
    pub fn prepare(&mut self) -> Result<Reply, Error> {
        self.event(&Event::Prepare)
    }

    /// The plan that is prepared is handed out, once.
    pub fn hand(&mut self) -> Result<Option<Plan>, Error> {
        Ok(match self.event(&Event::Hand)? {
            Reply::Plan(plan) => Some(plan),
            _ => None,
        })
    }

    /// The keeper starts again, without what waits and what is prepared.
    pub fn restart(&mut self) -> Result<Reply, Error> {
        self.event(&Event::Restart)
    }

    /// The variables of the machine as they are to be stored: the bytes of a set file.
    pub fn set(&mut self) -> Result<Vec<u8>, Error> {
        self.0.set()
    }

    /// The number of the request that is to be applied next.
    pub fn next_number(&mut self) -> Result<u32, Error> {
        self.0.next_number()
    }

    fn event(&mut self, event: &Event<'_>) -> Result<Reply, Error> {
        let (numbers, told) = self.0.event(event)?;
        Ok(Reply::of(&told, numbers))
    }
}
