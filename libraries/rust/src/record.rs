//! Records of changes of a machine's boot variables: the bytes of a file in the folder `history`, all of them. By one the
//! change can be undone.
//!
//! Each call that is handed a record refuses bytes that are none, by a fault `Record..`. It may answer
//! [`Error::NoMemory`] in place of any other answer.

use crate::error::Error;
use crate::library;
use crate::numbers::{STANDING_CHANGED, STANDING_NOT_MADE, STANDING_UNCHANGED};
use crate::utf8;

/// The parts of a record.
#[derive(Clone, Debug, PartialEq, Eq)]
#[non_exhaustive]
pub struct Parts<'a> {
    /// What the machine is called.
    pub machine: &'a [u8],
    /// When the change was made, in seconds since 1970-01-01T00:00:00Z.
    pub time: u64,
    /// The set of what the machine kept before the change of Boot####, BootOrder, BootNext and Timeout, with attributes.
    pub before: &'a [u8],
    /// The same after the change.
    pub after: &'a [u8],
    /// The words of the command that made it.
    pub words: Vec<String>,
}

/// What the boot manager's variables of a machine are now, beside a record of a change of it.
#[derive(Clone, Copy, Debug, PartialEq, Eq)]
#[non_exhaustive]
pub enum Standing {
    /// Those after the change, but perhaps for a BootNext that a start has used.
    Unchanged,
    /// Those before the change, but perhaps for such a BootNext, and not those after it.
    NotMade,
    /// Neither: something else has changed them since.
    Changed,
    /// A standing that this crate doesn't know.
    Other(u32),
}

/// The record of a change of a machine, at a time in seconds since 1970, from what it kept before the change to what it keeps
/// after it, as [`MachineState::variables`](crate::MachineState::variables) has that, by a command of these words. A word
/// ends before its first zero, if it has one.
///
/// # Errors
///
/// [`Fault::MachineBadName`](crate::Fault::MachineBadName); otherwise a fault `Set..` of `before`, otherwise of `after`;
/// otherwise [`Fault::RecordTooLong`](crate::Fault::RecordTooLong).
pub fn make(machine: &[u8], time: u64, before: &[u8], after: &[u8], words: &[&str]) -> Result<Vec<u8>, Error> {
    let mut line = Vec::new();
    for word in words {
        line.extend(word.bytes().take_while(|byte| *byte != 0));
        line.push(0);
    }
    library::record_make(machine, time, before, after, &line)
}

/// The parts of a record.
pub fn parts(record: &[u8]) -> Result<Parts<'_>, Error> {
    let places = library::record_parts(record)?;
    let words = (0..places.words).map(|number| Ok(utf8(library::record_word(record, number)?)));
    Ok(Parts {
        machine: &record[places.machine..][..places.machine_len],
        time: places.time,
        before: &record[places.before..][..places.before_len],
        after: &record[places.after..][..places.after_len],
        words: words.collect::<Result<_, Error>>()?,
    })
}

/// What the boot manager's variables of a machine, which keeps these, are beside a record of a change of it.
///
/// # Errors
///
/// A fault `Record..`; otherwise one `Set..` of `variables`.
pub fn standing(record: &[u8], variables: &[u8]) -> Result<Standing, Error> {
    Ok(match library::record_standing(record, variables)? {
        STANDING_UNCHANGED => Standing::Unchanged,
        STANDING_NOT_MADE => Standing::NotMade,
        STANDING_CHANGED => Standing::Changed,
        other => Standing::Other(other),
    })
}

/// The set that undoes the change of a record, for [`Moves::restore`](crate::Moves::restore), where the machine keeps these
/// variables: what was before the change, with the Timeout that is there now if the record says nothing of it, and without
/// a BootNext that a start may have used.
///
/// # Errors
///
/// A fault `Record..`; otherwise one `Set..` of `variables`.
pub fn back(record: &[u8], variables: &[u8]) -> Result<Vec<u8>, Error> {
    library::record_back(record, variables)
}
