//! Sets of variables: the bytes of a set file, all of them.
//!
//! Each call refuses bytes that are no set: by a fault `Set..`, at the record that has it. It may answer
//! [`Error::NoMemory`] in place of any other answer.

use crate::edit;
use crate::entry::EntryNumber;
use crate::error::{Error, Refusal};
use crate::library::{self, RawNamed};
use crate::numbers::*;
use crate::option::LoadOption;
use std::collections::HashMap;
use std::fmt;

pub use crate::edit::{Addition, Edit, EditOutcome, Edited, NewOrder, Position};

/// A set without a variable.
pub const EMPTY: &[u8] = b"BVS1";

/// What a boot would try (UEFI 2.10, 3.3).
#[derive(Clone, Debug, PartialEq, Eq)]
#[non_exhaustive]
pub struct Plan {
    /// The number of BootNext's entry, which is tried first.
    pub next: Option<EntryNumber>,
    /// The numbers of the normal entries of BootOrder, in its order.
    pub normal: Vec<EntryNumber>,
}

impl Plan {
    pub(crate) fn of(next: u32, normal: Vec<u16>) -> Plan {
        Plan { next: entry_number(next), normal: entry_numbers(normal) }
    }

    /// All of these numbers, in the order in which a boot tries them.
    pub fn tried(&self) -> impl Iterator<Item = EntryNumber> + '_ {
        self.next.into_iter().chain(self.normal.iter().copied())
    }
}

impl fmt::Display for Plan {
    fn fmt(&self, formatter: &mut fmt::Formatter<'_>) -> fmt::Result {
        match self.next {
            Some(number) => write!(formatter, "plan next {number} normal")?,
            None => formatter.write_str("plan next - normal")?,
        }
        if self.normal.is_empty() {
            formatter.write_str(" -")?;
        }
        self.normal.iter().try_for_each(|number| write!(formatter, " {number}"))
    }
}

/// The entries that a start of firmware may write over or delete, by their numbers, which rise.
#[derive(Clone, Debug, PartialEq, Eq)]
#[non_exhaustive]
pub struct AtRisk {
    /// Those that neither BootOrder nor BootNext names.
    pub unnamed: Vec<EntryNumber>,
    /// Those of BootOrder that are no load option.
    pub undecodable: Vec<EntryNumber>,
}

/// What a boot makes of an entry that BootOrder names.
#[derive(Clone, Copy, Debug, PartialEq, Eq)]
#[non_exhaustive]
pub enum EntryState {
    /// It is tried.
    Normal,
    /// It isn't there.
    Absent,
    /// It is no load option.
    Undecodable,
    /// It isn't active.
    Inactive,
    /// It is active, and of another category than the normal boot.
    OtherCategory,
    /// A state that this crate doesn't know.
    Other(u32),
}

impl fmt::Display for EntryState {
    fn fmt(&self, formatter: &mut fmt::Formatter<'_>) -> fmt::Result {
        formatter.write_str(match self {
            EntryState::Normal => "normal",
            EntryState::Absent => "absent",
            EntryState::Undecodable => "undecodable",
            EntryState::Inactive => "inactive",
            EntryState::OtherCategory => "other category",
            EntryState::Other(number) => return write!(formatter, "state {number}"),
        })
    }
}

/// A change of one variable of the boot manager.
#[derive(Clone, Copy, Debug, PartialEq, Eq)]
#[non_exhaustive]
pub struct Change<'a> {
    /// The variable.
    pub variable: BootVariable,
    /// What becomes of it.
    pub kind: ChangeKind,
    /// Its data before, if there was such a variable.
    pub before: Option<&'a [u8]>,
    /// Its data after, if there is such a variable then.
    pub after: Option<&'a [u8]>,
}

impl EntryState {
    pub(crate) fn of(number: u32) -> EntryState {
        match number {
            ENTRY_NORMAL => EntryState::Normal,
            ENTRY_ABSENT => EntryState::Absent,
            ENTRY_UNDECODABLE => EntryState::Undecodable,
            ENTRY_INACTIVE => EntryState::Inactive,
            ENTRY_OTHER_CATEGORY => EntryState::OtherCategory,
            other => EntryState::Other(other),
        }
    }
}

/// A number that BootNext or BootOrder names, and what a boot makes of its entry.
#[derive(Clone, Copy, Debug, PartialEq, Eq)]
#[non_exhaustive]
pub struct NamedEntry {
    /// [`BootVariable::Next`] or [`BootVariable::Order`].
    pub variable: BootVariable,
    /// The number.
    pub number: EntryNumber,
    /// What a boot makes of the entry.
    pub state: EntryState,
}

/// A variable of the boot manager.
#[derive(Clone, Copy, Debug, PartialEq, Eq)]
#[non_exhaustive]
pub enum BootVariable {
    /// Boot####.
    Entry(EntryNumber),
    /// BootOrder.
    Order,
    /// BootNext.
    Next,
    /// Timeout.
    Timeout,
    /// A variable that this crate doesn't know. Its text is the name of none.
    Other(u32),
}

impl fmt::Display for BootVariable {
    fn fmt(&self, formatter: &mut fmt::Formatter<'_>) -> fmt::Result {
        match self {
            BootVariable::Entry(number) => write!(formatter, "Boot{number}"),
            BootVariable::Order => formatter.write_str("BootOrder"),
            BootVariable::Next => formatter.write_str("BootNext"),
            BootVariable::Timeout => formatter.write_str("Timeout"),
            BootVariable::Other(number) => write!(formatter, "variable {number:#010x}"),
        }
    }
}

/// What becomes of a variable.
#[derive(Clone, Copy, Debug, PartialEq, Eq)]
#[non_exhaustive]
pub enum ChangeKind {
    /// It is new.
    Added,
    /// It has other data.
    Replaced,
    /// It is taken out.
    Removed,
    /// A change that this crate doesn't know.
    Other(u32),
}

pub(crate) fn entry_number(number: u32) -> Option<EntryNumber> {
    u16::try_from(number).ok().map(EntryNumber)
}

fn entry_numbers(numbers: Vec<u16>) -> Vec<EntryNumber> {
    numbers.into_iter().map(EntryNumber).collect()
}

/// What a boot would try with the variables of the set (UEFI 2.10, 3.3).
///
/// # Errors
///
/// [`VarsBadOrder`](crate::Fault::VarsBadOrder) and [`VarsBadNext`](crate::Fault::VarsBadNext), besides those of all
/// calls here.
pub fn plan(set: &[u8]) -> Result<Plan, Error> {
    let (normal, next) = library::vars_plan(set)?;
    Ok(Plan::of(next, normal))
}

/// The entries of the set that a start of firmware may write over or delete. edk2 was seen to do both; the standard
/// asks for neither.
///
/// # Errors
///
/// Those of [`plan`].
pub fn at_risk(set: &[u8]) -> Result<AtRisk, Error> {
    let (mut unnamed, count) = library::vars_at_risk(set)?;
    let undecodable = unnamed.split_off(count);
    Ok(AtRisk { unnamed: entry_numbers(unnamed), undecodable: entry_numbers(undecodable) })
}

/// The data of the variable of this name.
///
/// # Errors
///
/// [`Error::Absent`] if the set has none, besides those of all calls here.
pub fn get(set: &[u8], name: &str) -> Result<Vec<u8>, Error> {
    library::vars_get(set, name)
}

/// The set with this data for the variable of this name, in the place of what it had, if it had any.
///
/// # Errors
///
/// [`PutBadName`](crate::Fault::PutBadName), [`PutEmptyData`](crate::Fault::PutEmptyData) or
/// [`PutDataTooLong`](crate::Fault::PutDataTooLong), besides those of all calls here.
pub fn put(set: &[u8], name: &str, data: &[u8]) -> Result<Vec<u8>, Error> {
    library::vars_put(set, name, data)
}

/// The set without the variable of this name.
///
/// # Errors
///
/// [`Error::Absent`] if it has none, besides those of all calls here.
pub fn remove(set: &[u8], name: &str) -> Result<Vec<u8>, Error> {
    library::vars_remove(set, name)
}

/// What becomes of the set by an edit. Entries, BootOrder, BootNext and Timeout that it isn't of stay as they are, and so
/// does every other variable.
///
/// ```
/// use bootkeep::vars::{self, Addition, Edit, EditOutcome};
/// use bootkeep::{option, EntryNumber, LoadOption};
///
/// # fn main() -> Result<(), Box<dyn std::error::Error>> {
/// let option = LoadOption::new(option::ACTIVE, "Mine", &["PciRoot(0x0)".parse()?], b"")?;
/// let edited = vars::edit(vars::EMPTY, Edit::Add(Addition::new(&option)))?;
/// assert_eq!(edited.outcome, EditOutcome::Added(EntryNumber(0)));
/// let edited = vars::edit(&edited.set, Edit::Next(Some(EntryNumber(0))))?;
/// assert_eq!(vars::plan(&edited.set)?.to_string(), "plan next 0000 normal 0000");
/// # Ok(())
/// # }
/// ```
///
/// # Errors
///
/// A fault `Unedited..`, whose place is the number of the entry that it is for;
/// [`VarsBadOrder`](crate::Fault::VarsBadOrder) and [`VarsBadNext`](crate::Fault::VarsBadNext); a fault `Set..` of bytes
/// that are no set; [`Error::NoMemory`].
pub fn edit(set: &[u8], edit: Edit<'_>) -> Result<Edited, Error> {
    edit::edited(set, edit)
}

/// The variables of the set, each as its name and its data, in the order of the names. Nothing of them is copied.
pub fn list(set: &[u8]) -> Result<impl ExactSizeIterator<Item = (&str, &[u8])>, Error> {
    let places = library::vars_list(set)?;
    Ok(places.into_iter().map(move |place| {
        // A name is ASCII.
        let name = std::str::from_utf8(&set[place.name..place.name + place.name_len]).unwrap_or_default();
        (name, &set[place.data..place.data + place.data_len])
    }))
}

/// The lowest number under which the set has no entry, if there is one.
pub fn lowest_free(set: &[u8]) -> Result<Option<EntryNumber>, Error> {
    let number = library::vars_lowest_free(set)?;
    debug_assert!(number <= NO_ENTRY);
    Ok(entry_number(number))
}

/// What BootNext and then BootOrder name, in the order in which a boot looks at it (UEFI 2.10, 3.3).
///
/// # Errors
///
/// Those of [`plan`].
pub fn named(set: &[u8]) -> Result<Vec<NamedEntry>, Error> {
    let named = library::vars_named(set)?;
    Ok(named.iter().map(named_entry).collect())
}

fn named_entry(told: &RawNamed) -> NamedEntry {
    // No number of an entry has more than 16 bits.
    let number = EntryNumber(told.number as u16);
    NamedEntry { variable: variable(told.variable), number, state: EntryState::of(told.state) }
}

/// What a boot makes of the entry of this number if BootOrder names it: why it isn't in the plan, or that it is.
/// BootNext's isn't if it is absent or undecodable.
pub fn entry(set: &[u8], number: EntryNumber) -> Result<EntryState, Error> {
    library::vars_entry(set, number.0).map(EntryState::of)
}

/// The load option of the entry of this number.
///
/// # Errors
///
/// [`Error::Absent`] if there is no such entry, and a fault `Option..` of data that are none, besides those of all calls
/// here.
pub fn option(set: &[u8], number: EntryNumber) -> Result<LoadOption, Error> {
    LoadOption::try_from(get(set, &number.name())?)
}

/// An entry of a set: a variable Boot####.
#[derive(Clone, Debug, PartialEq, Eq)]
#[non_exhaustive]
pub struct Entry<'a> {
    /// Its number.
    pub number: EntryNumber,
    /// Its data.
    pub data: &'a [u8],
    /// The load option that its data is, or why it is none.
    pub option: Result<LoadOption, Refusal>,
    /// What a boot makes of it if BootOrder names it.
    pub state: EntryState,
    /// Its first place in BootOrder, from 0, if that names it.
    pub order_place: Option<usize>,
    /// Whether BootNext names it.
    pub is_next: bool,
}

impl fmt::Display for Entry<'_> {
    fn fmt(&self, formatter: &mut fmt::Formatter<'_>) -> fmt::Result {
        write!(formatter, "Boot{} {} ", self.number, self.state)?;
        match &self.option {
            Ok(option) => option.fmt(formatter),
            Err(refusal) => refusal.fmt(formatter),
        }
    }
}

/// The entries of the set, whose numbers rise.
///
/// # Errors
///
/// Those of [`plan`].
pub fn entries(set: &[u8]) -> Result<Vec<Entry<'_>>, Error> {
    let named = named(set)?;
    let next = named.iter().find(|one| one.variable == BootVariable::Next).map(|one| one.number);
    let order = named.iter().filter(|one| one.variable == BootVariable::Order);
    let mut places = HashMap::new();
    for (place, one) in order.enumerate() {
        places.entry(one.number).or_insert(place);
    }
    let mut entries = Vec::new();
    for (name, data) in list(set)? {
        if let Ok(number) = EntryNumber::from_name(name) {
            let option = match LoadOption::try_from(data) {
                Ok(option) => Ok(option),
                Err(Error::Refused(refusal)) => Err(refusal),
                Err(error) => return Err(error),
            };
            let (state, order_place) = (entry(set, number)?, places.get(&number).copied());
            entries.push(Entry { number, data, option, state, order_place, is_next: next == Some(number) });
        }
    }
    Ok(entries)
}

/// The changes that lead from one set to the boot manager's variables of another, in an order in which a machine can
/// make them: after each of them BootOrder and BootNext name a missing entry only if they did before all of them, or do
/// after them.
///
/// # Errors
///
/// The fault of `from`, otherwise that of `to`.
pub fn changes<'a>(from: &'a [u8], to: &'a [u8]) -> Result<Vec<Change<'a>>, Error> {
    let changes = library::vars_changes(from, to)?;
    let (old, new): (HashMap<_, _>, HashMap<_, _>) = (list(from)?.collect(), list(to)?.collect());
    Ok(changes
        .iter()
        .map(|change| {
            let variable = variable(change.variable);
            let name = variable.to_string();
            let (before, after) = (old.get(&name[..]).copied(), new.get(&name[..]).copied());
            Change { variable, kind: kind(change.kind), before, after }
        })
        .collect())
}

fn variable(number: u32) -> BootVariable {
    match number {
        VARIABLE_ORDER => BootVariable::Order,
        VARIABLE_NEXT => BootVariable::Next,
        VARIABLE_TIMEOUT => BootVariable::Timeout,
        number => entry_number(number).map_or(BootVariable::Other(number), BootVariable::Entry),
    }
}

fn kind(number: u32) -> ChangeKind {
    match number {
        CHANGE_ADDED => ChangeKind::Added,
        CHANGE_REPLACED => ChangeKind::Replaced,
        CHANGE_REMOVED => ChangeKind::Removed,
        other => ChangeKind::Other(other),
    }
}

#[cfg(test)]
mod tests {
    use super::*;

    #[test]
    fn a_number_that_is_not_known_is_no_entry() {
        let known = [
            (0, "Boot0000"),
            (0xFFFF, "BootFFFF"),
            (VARIABLE_ORDER, "BootOrder"),
            (VARIABLE_NEXT, "BootNext"),
            (VARIABLE_TIMEOUT, "Timeout"),
        ];
        for (number, name) in known {
            assert_eq!(variable(number).to_string(), name);
        }
        for number in [NO_ENTRY, 0x0001_0004, u32::MAX] {
            assert_eq!(variable(number), BootVariable::Other(number));
        }
        assert_eq!(variable(0x0001_0004).to_string(), "variable 0x00010004");
    }
}
