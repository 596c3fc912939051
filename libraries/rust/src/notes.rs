//! Notes at the start of a journal's file, which are kept for those who send requests: an identity, by which a sender knows
//! the journal again, and digests of the frames that were applied last. [`Moves::notes`](crate::Moves::notes) gives those
//! after a command.

use crate::error::Error;
use crate::library;
use crate::numbers::IDENTITY_LEN;

/// How many bytes of notes a journal's file begins with: 0 if it has none. The journal is after them.
///
/// # Errors
///
/// A fault `Notes..`; [`Error::NoMemory`].
pub fn len(notes: &[u8]) -> Result<usize, Error> {
    library::notes_len(notes)
}

/// Notes with this identity, which was drawn at random, and of which no frame was applied as yet.
///
/// # Errors
///
/// [`Error::NoMemory`].
pub fn make(identity: &[u8; IDENTITY_LEN]) -> Result<Vec<u8>, Error> {
    library::notes_make(identity)
}

/// The identity in the notes that these bytes begin with, or `None` if they don't.
///
/// # Errors
///
/// A fault `Notes..`; [`Error::NoMemory`].
pub fn identity(notes: &[u8]) -> Result<Option<Vec<u8>>, Error> {
    match library::notes_identity(notes) {
        Err(Error::Absent) => Ok(None),
        found => found.map(Some),
    }
}
