//! Commands over a machine, whose moves their caller makes.

use crate::edit::{self, Edit, EditOutcome};
use crate::error::{Error, Fault};
use crate::keeper::Reply;
use crate::library::{Command, RawEnd, Wanted};
use crate::numbers::{
    BECAME_DONE, BECAME_PERHAPS, BECAME_REFUSED, END_DONE, END_NOT_RUN, END_NOT_SETTLED, END_NO_MEMORY,
    END_RUN_REFUSED, END_TAKEN_BACK, END_UNSETTLED, MOVE_DELETE, MOVE_JOURNAL, MOVE_NONE, MOVE_SET, NO_KIND, SAME_NO,
    SAME_UNKNOWN, SAME_YES,
};
use std::fmt;

/// What was read of a machine.
#[derive(Clone, Copy, Debug)]
pub struct MachineState<'a> {
    /// What it is called: no two machines have the same name.
    pub machine: &'a [u8],
    /// The identity of its start: another one after each start, as in `/proc/sys/kernel/random/boot_id`.
    pub start: &'a [u8],
    /// A set of what the machine keeps: of each variable of the boot manager its attributes, in four bytes, and then its
    /// data.
    pub variables: &'a [u8],
    /// The bytes of the journal's file: none if there is no such file.
    pub journal: &'a [u8],
}

/// A move of a machine. It is made whole, or not at all.
#[derive(Clone, Debug, PartialEq, Eq)]
#[non_exhaustive]
pub enum Move {
    /// A variable is to be set.
    Set {
        /// Its name.
        name: String,
        /// What it is to have, its attributes first.
        data: Vec<u8>,
    },
    /// A variable is to be deleted.
    Delete {
        /// Its name.
        name: String,
    },
    /// The journal's file is to be replaced by these bytes.
    Journal(Vec<u8>),
}

/// What became of a move.
#[derive(Clone, Copy, Debug, PartialEq, Eq)]
pub enum Became {
    /// It is made, and no cut undoes it.
    Done,
    /// It was refused, for the caller's reason of this number, and isn't made.
    Refused(u32),
    /// It was refused, for the caller's reason of this number, and is made nevertheless, or that can't be told.
    Perhaps(u32),
}

/// How a command over a machine ended. The numbers are the caller's, of why moves were refused.
#[derive(Clone, Debug, PartialEq, Eq)]
#[non_exhaustive]
pub enum End {
    /// It has happened.
    Done {
        /// The reply to each frame: none of an edit.
        replies: Vec<Reply>,
        /// What came of an edit.
        edited: EditOutcome,
    },
    /// A move of what an earlier command had left was refused, and that is taken back. Nothing was run.
    NotRun(u32),
    /// The same, but it isn't taken back yet: the next command goes on with it. The second number, or 0, is of a move
    /// that takes it back. Nothing was run.
    NotSettled(u32, u32),
    /// The variables were refused. Nothing was changed.
    RunRefused(Fault),
    /// A move was refused, and the change is taken back: it hasn't happened.
    TakenBack(u32),
    /// A move was refused, and then one that takes the change back: it may still happen.
    Unsettled(u32, u32),
    /// Memory was refused. Nothing was changed.
    NoMemory,
    /// One that this crate doesn't know.
    Other(u32),
}

/// Whether a frame that came again is the one that was applied under its number.
#[derive(Clone, Copy, Debug, PartialEq, Eq)]
#[non_exhaustive]
pub enum Same {
    /// It is no repeat of one that was applied, or no digest of that one is kept.
    Unknown,
    /// It is that one.
    Yes,
    /// Another frame was applied under its number.
    No,
    /// One that this crate doesn't know.
    Other(u32),
}

impl Same {
    pub(crate) fn of(number: u32) -> Same {
        match number {
            SAME_UNKNOWN => Same::Unknown,
            SAME_YES => Same::Yes,
            SAME_NO => Same::No,
            other => Same::Other(other),
        }
    }
}

/// A change of a machine of which the caller makes each move, and tells what became of it. What the caller promises is in
/// `bootkeep.h`, under *Machines*: moves are made one by one, whole, and in a way that a cut doesn't undo. It is closed when
/// it is dropped, and may be sent to another thread.
pub struct Moves(Command);

impl fmt::Debug for Moves {
    fn fmt(&self, formatter: &mut fmt::Formatter<'_>) -> fmt::Result {
        formatter.debug_struct("Moves").finish_non_exhaustive()
    }
}

impl Moves {
    /// A command that runs the frames of a stream over the machine's variables, after what an earlier one has left is done.
    ///
    /// # Errors
    ///
    /// A fault `Stream..`; otherwise `Machine..`; otherwise `Set..`; otherwise `Journal..`; [`Error::NoMemory`].
    pub fn requests(state: MachineState<'_>, stream: &[u8]) -> Result<Moves, Error> {
        Moves::begin(state, Wanted::Frames(stream))
    }

    /// A command that makes an edit of the machine's variables, after what an earlier one has left is done. If the variables
    /// refuse it, [`End::RunRefused`] says so.
    ///
    /// # Errors
    ///
    /// As of [`Moves::requests`], but none of a stream.
    pub fn edit(state: MachineState<'_>, edit: Edit<'_>) -> Result<Moves, Error> {
        let (asked, numbers, option) = edit::arguments(edit);
        let numbers: Vec<u16> = numbers.iter().map(|entry| entry.0).collect();
        Moves::begin(state, Wanted::Edit(asked, &numbers, option))
    }

    /// A command that brings the boot manager's variables back to those of a set, after what an earlier one has left is done:
    /// what the set has is there then, and what it hasn't is gone. It has of each variable what the machine keeps, as
    /// [`MachineState::variables`] has it: so what was read before a change undoes it.
    ///
    /// # Errors
    ///
    /// A fault `Set..` of `back`; otherwise [`Fault::MachineNoData`], if a variable in it has no data; otherwise as of
    /// [`Moves::requests`], but none of a stream.
    pub fn restore(state: MachineState<'_>, back: &[u8]) -> Result<Moves, Error> {
        Moves::begin(state, Wanted::Restore(back))
    }

    /// A command that does what an earlier one has left to do, and no more.
    ///
    /// # Errors
    ///
    /// As of [`Moves::requests`], but none of a stream.
    pub fn settle(state: MachineState<'_>) -> Result<Moves, Error> {
        Moves::begin(state, Wanted::Nothing)
    }

    fn begin(state: MachineState<'_>, wanted: Wanted<'_>) -> Result<Moves, Error> {
        let MachineState { machine, start, variables, journal } = state;
        Ok(Moves(Command::begin(machine, start, variables, journal, wanted)?))
    }

    /// The move that comes next, by what was told so far, or `None` if the command has ended.
    ///
    /// # Errors
    ///
    /// [`Error::NoMemory`]: nothing has happened, and the same call may be made again.
    pub fn next_move(&mut self) -> Result<Option<Move>, Error> {
        Ok(match self.0.next()? {
            MOVE_NONE => None,
            MOVE_SET => Some(Move::Set { name: self.name()?, data: self.0.bytes()? }),
            MOVE_DELETE => Some(Move::Delete { name: self.name()? }),
            MOVE_JOURNAL => Some(Move::Journal(self.0.bytes()?)),
            other => return Err(Error::Other(other)),
        })
    }

    fn name(&mut self) -> Result<String, Error> {
        // The names of variables are ASCII.
        Ok(self.0.name()?.into_iter().map(char::from).collect())
    }

    /// Tells what became of the move that [`Moves::next_move`] gave.
    ///
    /// # Errors
    ///
    /// [`Error::Absent`] if no move is asked for.
    pub fn tell(&mut self, became: Became) -> Result<(), Error> {
        match became {
            Became::Done => self.0.tell(BECAME_DONE, 0),
            Became::Refused(reason) => self.0.tell(BECAME_REFUSED, reason),
            Became::Perhaps(reason) => self.0.tell(BECAME_PERHAPS, reason),
        }
    }

    /// How the command ended.
    ///
    /// # Errors
    ///
    /// [`Error::Absent`] if [`Moves::next_move`] hasn't told that it has.
    pub fn end(&mut self) -> Result<End, Error> {
        let RawEnd { kind, reason, second_reason, fault, replies, edited, entry, .. } = self.0.end()?;
        Ok(match kind {
            END_DONE => End::Done { replies: self.replies(replies)?, edited: EditOutcome::of(edited, entry) },
            END_NOT_RUN => End::NotRun(reason),
            END_NOT_SETTLED => End::NotSettled(reason, second_reason),
            END_RUN_REFUSED if fault != NO_KIND => End::RunRefused(Fault::from(fault)),
            END_TAKEN_BACK => End::TakenBack(reason),
            END_UNSETTLED => End::Unsettled(reason, second_reason),
            END_NO_MEMORY => End::NoMemory,
            other => End::Other(other),
        })
    }

    /// The notes after a command of frames that has happened, from those before it, or the journal's file that begins with
    /// them: no bytes if there were none.
    ///
    /// # Errors
    ///
    /// [`Error::Absent`] if the command isn't one of frames, or hasn't happened; a fault `Notes..`; [`Error::NoMemory`].
    pub fn notes(&mut self, before: &[u8]) -> Result<Vec<u8>, Error> {
        self.0.notes(before)
    }

    /// Whether the frame at this place of the stream, which was a repeat, is the one that was applied under its number, by
    /// the notes before the command, or the journal's file that begins with them.
    ///
    /// # Errors
    ///
    /// As of [`Moves::notes`], and [`Error::Absent`] if there is no such frame.
    pub fn same(&mut self, before: &[u8], place: usize) -> Result<Same, Error> {
        Ok(Same::of(self.0.same(before, place)?))
    }

    fn replies(&mut self, count: usize) -> Result<Vec<Reply>, Error> {
        (0..count).map(|place| Ok(Reply::of(&self.0.reply(place)?, Vec::new()))).collect()
    }
}
