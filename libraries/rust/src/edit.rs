//! Edits of sets, as an administrator asks for them (UEFI 2.10, chapter 3).

use crate::entry::EntryNumber;
use crate::error::Error;
use crate::library::{self, RawEdit};
use crate::numbers::*;
use crate::option::LoadOption;
use crate::vars::entry_number;

/// What is to be done with a set. A list of numbers names entries, no one twice.
#[derive(Clone, Copy, Debug, PartialEq, Eq, Hash)]
pub enum Edit<'a> {
    /// An entry is added, unless one with its description and its paths is there.
    Add(Addition<'a>),
    /// Entries are deleted, their numbers taken out of BootOrder, and BootNext is deleted if it names one.
    Remove(&'a [EntryNumber]),
    /// Entries come first in BootOrder, in this sequence, and the rest of it behind them.
    First(&'a [EntryNumber]),
    /// BootOrder becomes another one.
    Order(NewOrder<'a>),
    /// BootOrder has each of its numbers once, where that is first.
    Unrepeat,
    /// BootNext names this entry, or is deleted.
    Next(Option<EntryNumber>),
    /// Timeout becomes so many seconds, or is deleted.
    Timeout(Option<u16>),
    /// Entries get LOAD_OPTION_ACTIVE.
    Activate(&'a [EntryNumber]),
    /// Entries lose LOAD_OPTION_ACTIVE.
    Deactivate(&'a [EntryNumber]),
}

/// An entry that is to be added.
#[derive(Clone, Copy, Debug, PartialEq, Eq, Hash)]
pub struct Addition<'a> {
    /// The load option.
    pub option: &'a LoadOption,
    /// Its number, or the lowest one that is free.
    pub number: Option<EntryNumber>,
    /// Where it comes in BootOrder.
    pub position: Position,
    /// Whether it is added even if one with its description and its paths is there.
    pub again: bool,
}

impl<'a> Addition<'a> {
    /// This option under the lowest free number, last in BootOrder, once.
    pub fn new(option: &'a LoadOption) -> Addition<'a> {
        Addition { option, number: None, position: Position::Last, again: false }
    }

    /// The same, first in BootOrder.
    pub fn first(self) -> Addition<'a> {
        Addition { position: Position::First, ..self }
    }
}

/// Where a new entry comes in BootOrder.
#[derive(Clone, Copy, Debug, PartialEq, Eq, Hash)]
pub enum Position {
    /// Last, unless its number is there already, which stays where it is.
    Last,
    /// First, and nowhere else.
    First,
    /// BootOrder stays as it is.
    None,
}

/// A BootOrder that is asked for.
#[derive(Clone, Copy, Debug, PartialEq, Eq, Hash)]
pub struct NewOrder<'a> {
    /// The numbers that come first.
    pub numbers: &'a [EntryNumber],
    /// Whether they are the whole order: if not, those that it had come behind them.
    pub only: bool,
    /// Whether one of them may have no entry.
    pub stale: bool,
}

/// A set after an edit, and what came of that.
#[derive(Clone, Debug, PartialEq, Eq)]
#[non_exhaustive]
pub struct Edited {
    /// The bytes of the set.
    pub set: Vec<u8>,
    /// What came of the edit.
    pub outcome: EditOutcome,
}

/// What came of an edit.
#[derive(Clone, Copy, Debug, PartialEq, Eq, Hash)]
#[non_exhaustive]
pub enum EditOutcome {
    /// The set is as it was to be.
    Done,
    /// The entry is added, under this number.
    Added(EntryNumber),
    /// Nothing is changed: a load option with this description and these paths is there already, and this is the lowest
    /// number of one.
    Present(EntryNumber),
    /// Something that this crate doesn't know.
    Other(u32),
}

/// The set after an edit, and what came of that.
pub(crate) fn edited(set: &[u8], edit: Edit<'_>) -> Result<Edited, Error> {
    let (asked, numbers, option) = arguments(edit);
    let numbers: Vec<u16> = numbers.iter().map(|entry| entry.0).collect();
    let (set, edited) = library::vars_edit(&asked, &numbers, option, set)?;
    Ok(Edited { set, outcome: EditOutcome::of(edited.kind, edited.entry) })
}

impl EditOutcome {
    /// What came of an edit, by the numbers that the library tells.
    pub(crate) fn of(kind: u32, entry: u32) -> EditOutcome {
        match (kind, entry_number(entry)) {
            (EDITED_DONE, _) => EditOutcome::Done,
            (EDITED_ADDED, Some(entry)) => EditOutcome::Added(entry),
            (EDITED_PRESENT, Some(entry)) => EditOutcome::Present(entry),
            (kind, _) => EditOutcome::Other(kind),
        }
    }
}

/// What the library is handed for an edit: its numbers, those of a list, and the bytes of an option.
pub(crate) fn arguments(edit: Edit<'_>) -> (RawEdit, &[EntryNumber], &[u8]) {
    let of = |kind| RawEdit::new(kind, NO_ENTRY);
    match edit {
        Edit::Add(addition) => (of_addition(&addition), &[], addition.option.as_ref()),
        Edit::Remove(numbers) => (of(EDIT_REMOVE), numbers, &[]),
        Edit::First(numbers) => (of(EDIT_FIRST), numbers, &[]),
        Edit::Order(new) => {
            let asked = RawEdit { only: new.only.into(), stale: new.stale.into(), ..of(EDIT_ORDER) };
            (asked, new.numbers, &[])
        }
        Edit::Unrepeat => (of(EDIT_UNREPEAT), &[], &[]),
        Edit::Next(next) => (RawEdit::new(EDIT_NEXT, number_of(next.map(|entry| entry.0))), &[], &[]),
        Edit::Timeout(seconds) => (RawEdit::new(EDIT_TIMEOUT, number_of(seconds)), &[], &[]),
        Edit::Activate(numbers) => (of(EDIT_ACTIVATE), numbers, &[]),
        Edit::Deactivate(numbers) => (of(EDIT_DEACTIVATE), numbers, &[]),
    }
}

fn of_addition(addition: &Addition<'_>) -> RawEdit {
    let position = match addition.position {
        Position::Last => POSITION_LAST,
        Position::First => POSITION_FIRST,
        Position::None => POSITION_NONE,
    };
    let number = number_of(addition.number.map(|entry| entry.0));
    RawEdit { position, again: addition.again.into(), ..RawEdit::new(EDIT_ADD, number) }
}

/// The number, or what stands for none.
fn number_of(number: Option<u16>) -> u32 {
    number.map_or(NO_ENTRY, u32::from)
}
