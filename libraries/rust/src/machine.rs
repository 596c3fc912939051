//! The boot entries of a Linux machine, read and changed where they are: the feature `machine`, over
//! `bootkeep-linux.h`.
//!
//! Each change is made whole or not at all, also over a loss of power. It takes the locks, the journal and the records of
//! `bootvars`, so that each finishes, takes back and undoes what the other has left:
//!
//! ```no_run
//! use bootkeep::machine::{Loader, LoaderAddition, Machine, Mode};
//!
//! # fn main() -> Result<(), bootkeep::MachineError> {
//! let mut machine = Machine::open()?;
//! println!("{}", machine.plan()?);
//! let loader = Loader::new("/boot/efi/EFI/rescue/grubx64.efi".as_ref(), "Rescue");
//! let change = machine.add_loader(&LoaderAddition::new(loader).first(), Mode::Real)?;
//! println!("{:?}", change.edited);
//! machine.undo(false, Mode::Real)?;
//! # Ok(())
//! # }
//! ```

use crate::edit::{Addition, EditOutcome, NewOrder};
use crate::entry::EntryNumber;
use crate::error::{Error, Fault, Refusal};
use crate::keeper::Reply;
use crate::library::RawRefusal;
use crate::linux::{self, Failure, Handle, Told, Wanted};
pub use crate::machine_numbers::VERSION;
use crate::machine_numbers::*;
use crate::moves::Same;
use crate::numbers::{ABSENT, NO_ENTRY, NO_MEMORY, POSITION_FIRST, POSITION_LAST, POSITION_NONE, REFUSED};
use crate::option::{self, LoadOption};
use crate::vars::{self, entry_number, EntryState, Position};
use std::ffi::CString;
use std::fmt;
use std::io;
use std::num::NonZeroU32;
use std::os::unix::ffi::OsStrExt;
use std::path::{Path, PathBuf};

/// The version of the interface that the library over machines has.
pub fn version() -> u32 {
    linux::version()
}

/// Which machine is meant: the one that this runs on, if nothing else is said.
#[derive(Clone, Debug, Default)]
#[must_use]
pub struct MachineOptions {
    variables: Option<PathBuf>,
    state: Option<PathBuf>,
    name: Option<String>,
    start: Option<String>,
    words: Vec<String>,
    flags: u32,
}

impl MachineOptions {
    /// The machine that this runs on.
    pub fn new() -> MachineOptions {
        MachineOptions::default()
    }

    /// The folder in which Linux shows the variables, in the place of `/sys/firmware/efi/efivars`; or an emulator's variable
    /// file, whose machine has to be off.
    pub fn variables(mut self, place: impl Into<PathBuf>) -> MachineOptions {
        self.variables = Some(place.into());
        self
    }

    /// The folder of the journal and the records, in the place of `/var/lib/bootkeep`. Its own folder has to be there.
    pub fn state(mut self, folder: impl Into<PathBuf>) -> MachineOptions {
        self.state = Some(folder.into());
        self
    }

    /// What the machine is called, which no other machine is, in the place of what the system says.
    pub fn name(mut self, name: impl Into<String>) -> MachineOptions {
        self.name = Some(name.into());
        self
    }

    /// The identity of the machine's start, in the place of that of `/proc/sys/kernel/random/boot_id`. Of a variable file
    /// [`Machine::update`] and [`Machine::settle`] need it: a text that is another one after each start of its machine.
    pub fn start(mut self, start: impl Into<String>) -> MachineOptions {
        self.start = Some(start.into());
        self
    }

    /// The words that are kept with each change, which `bootvars undo --list` shows.
    pub fn words<W: Into<String>>(mut self, words: impl IntoIterator<Item = W>) -> MachineOptions {
        self.words = words.into_iter().map(Into::into).collect();
        self
    }

    /// Another machine's journal in the state folder is taken over, if nothing is left to do in it.
    pub fn adopt(mut self) -> MachineOptions {
        self.flags |= ADOPT;
        self
    }

    /// Nothing is kept of what was there before a change: it can't be undone.
    pub fn without_records(mut self) -> MachineOptions {
        self.flags |= NO_RECORD;
        self
    }

    /// The machine. Nothing of it is looked at as yet.
    ///
    /// # Errors
    ///
    /// [`ErrorKind::Refused`] of a name or a start that is none, an empty path, and a zero character;
    /// [`ErrorKind::NoMemory`].
    pub fn open(&self) -> Result<Machine, MachineError> {
        let options = linux::Options {
            variables: self.variables.as_deref().map(path_for_c).transpose()?,
            state: self.state.as_deref().map(path_for_c).transpose()?,
            name: self.name.as_deref().map(text_for_c).transpose()?,
            start: self.start.as_deref().map(text_for_c).transpose()?,
            flags: self.flags,
        };
        let mut machine = Machine(Handle::open(&options)?);
        machine.set_words(&self.words)?;
        Ok(machine)
    }
}

/// Whether a change is made, or only told.
#[derive(Clone, Copy, Debug, PartialEq, Eq, Hash)]
pub enum Mode {
    /// It is made.
    Real,
    /// Nothing is changed, no lock is taken and nothing is kept: what the change would lead to is told.
    DryRun,
}

/// A file that firmware is to start. It is on a partition that is mounted, or on a disk that is named.
#[derive(Clone, Copy, Debug, PartialEq, Eq, Hash)]
pub struct Loader<'a> {
    /// The path of the file, as `/boot/efi/EFI/debian/shimx64.efi`; on a disk that is named its name there.
    pub file: &'a Path,
    /// The description of the entry.
    pub description: &'a str,
    /// The attributes of the load option, as [`option::ACTIVE`].
    pub attributes: u32,
    /// The optional data, which the loader gets as its arguments.
    pub optional: &'a [u8],
    /// A folder that stands for the root of the system: the file, and what is read of `/proc`, `/sys` and `/dev`, is below
    /// it.
    pub root: Option<&'a Path>,
    /// The disk that it is on, or a partition, as `/dev/nvme0n1`, which need not be mounted.
    pub disk: Option<&'a Path>,
    /// The number of the partition of the disk, in the place of the first.
    pub part: Option<NonZeroU32>,
}

impl<'a> Loader<'a> {
    /// An active option of this file, without optional data.
    pub fn new(file: &'a Path, description: &'a str) -> Loader<'a> {
        Loader { file, description, attributes: option::ACTIVE, optional: &[], root: None, disk: None, part: None }
    }

    fn for_c(&self) -> Result<linux::Loader<'a>, MachineError> {
        Ok(linux::Loader {
            file: path_for_c(self.file)?,
            description: text_for_c(self.description)?,
            attributes: self.attributes,
            optional: self.optional,
            root: self.root.map(path_for_c).transpose()?,
            disk: self.disk.map(path_for_c).transpose()?,
            part: self.part.map_or(0, NonZeroU32::get),
        })
    }
}

/// An entry that is to be added for a loader.
#[derive(Clone, Copy, Debug, PartialEq, Eq, Hash)]
pub struct LoaderAddition<'a> {
    /// The loader.
    pub loader: Loader<'a>,
    /// The number of the entry, or the lowest one that is free.
    pub number: Option<EntryNumber>,
    /// Where it comes in BootOrder.
    pub position: Position,
    /// Whether it is added even if one with its description and its path is there.
    pub again: bool,
    /// Whether it is added although firmware wouldn't start the file.
    pub force: bool,
}

impl<'a> LoaderAddition<'a> {
    /// This loader under the lowest free number, last in BootOrder, once.
    pub fn new(loader: Loader<'a>) -> LoaderAddition<'a> {
        LoaderAddition { loader, number: None, position: Position::Last, again: false, force: false }
    }

    /// The same, first in BootOrder.
    pub fn first(self) -> LoaderAddition<'a> {
        LoaderAddition { position: Position::First, ..self }
    }
}

/// What is expected of a machine before requests are run. What is `None` isn't looked at.
#[derive(Clone, Copy, Debug, Default, PartialEq, Eq, Hash)]
pub struct Expected<'a> {
    /// The number of the request that is to be applied next.
    pub number: Option<u32>,
    /// The identity of the journal, or that it has none.
    pub journal: Option<Option<[u8; 16]>>,
    /// The numbers of BootOrder, or that it isn't there.
    pub order: Option<Option<&'a [EntryNumber]>>,
}

/// What a machine's variables are in.
#[derive(Clone, Copy, Debug, PartialEq, Eq, Hash)]
#[non_exhaustive]
pub enum MachinePlace {
    /// A folder as Linux shows them.
    Folder,
    /// An emulator's variable file.
    File,
    /// A later version's.
    Other(u32),
}

/// What a boot would try (UEFI 2.10, 3.3). As a text it is that of its [`vars::Plan`].
#[derive(Clone, Debug, PartialEq, Eq)]
#[non_exhaustive]
pub struct MachinePlan {
    /// What is tried, in this order.
    pub plan: vars::Plan,
    /// All numbers of BootOrder.
    pub order: Vec<EntryNumber>,
    /// The number of the entry that this boot came from.
    pub current: Option<EntryNumber>,
    /// How many seconds firmware waits before it tries the plan.
    pub timeout: Option<u16>,
}

impl fmt::Display for MachinePlan {
    fn fmt(&self, formatter: &mut fmt::Formatter<'_>) -> fmt::Result {
        self.plan.fmt(formatter)
    }
}

/// An entry of a machine: a variable Boot####.
#[derive(Clone, Debug, PartialEq, Eq)]
#[non_exhaustive]
pub struct MachineEntry {
    /// Its number.
    pub number: EntryNumber,
    /// Its data, without the attributes of the variable.
    pub data: Vec<u8>,
    /// The load option that its data is, or why it is none.
    pub option: Result<LoadOption, Refusal>,
    /// What a boot makes of it if BootOrder names it.
    pub state: EntryState,
    /// Its first place in BootOrder, from 0, if that names it.
    pub order_place: Option<usize>,
    /// Whether BootNext names it.
    pub is_next: bool,
    /// Whether this boot came from it.
    pub is_current: bool,
}

impl fmt::Display for MachineEntry {
    /// As [`vars::Entry`] is written.
    fn fmt(&self, formatter: &mut fmt::Formatter<'_>) -> fmt::Result {
        write!(formatter, "Boot{} {} ", self.number, self.state)?;
        match &self.option {
            Ok(option) => option.fmt(formatter),
            Err(refusal) => refusal.fmt(formatter),
        }
    }
}

/// What came of a change, or would come of it.
#[derive(Clone, Debug, PartialEq, Eq)]
#[non_exhaustive]
pub struct MachineChange {
    /// Whether a variable of the boot manager was changed.
    pub is_changed: bool,
    /// Whether an earlier change had left something to do, which is done now.
    pub is_settled: bool,
    /// What came of an edit.
    pub edited: EditOutcome,
    /// The number of the record that is kept of the change, for an undo.
    pub record: Option<u64>,
    /// A set of what the machine kept of its variables before the change, as [`Machine::kept`] gives it.
    pub before: Vec<u8>,
    /// A set of what it keeps after the change.
    pub after: Vec<u8>,
    /// What is to be told of it besides, a line each: a file that was ignored, an entry that was left out.
    pub remarks: Vec<String>,
}

impl MachineChange {
    /// What became of each variable. Its data begin with the variable's attributes, in four bytes.
    ///
    /// # Errors
    ///
    /// [`Error::NoMemory`].
    pub fn changes(&self) -> Result<Vec<vars::Change<'_>>, Error> {
        vars::changes(&self.before, &self.after)
    }
}

/// The reply to a frame that was run over a machine. As a text it is its line.
#[derive(Clone, Debug, PartialEq, Eq)]
#[non_exhaustive]
pub struct MachineReply {
    /// The reply.
    pub reply: Reply,
    /// Of a repeat whether the frame is the one that was applied under its number: if not, another sender gave the number
    /// to another request.
    pub same: Same,
}

impl fmt::Display for MachineReply {
    fn fmt(&self, formatter: &mut fmt::Formatter<'_>) -> fmt::Result {
        self.reply.fmt(formatter)
    }
}

/// What the journal of a machine says of requests.
#[derive(Clone, Copy, Debug, PartialEq, Eq)]
#[non_exhaustive]
pub struct MachineJournal {
    /// The number of the request that is to be applied next.
    pub next_number: u32,
    /// The identity of the journal: another one says that the machine was installed anew.
    pub identity: Option<[u8; 16]>,
    /// Whether an earlier change has left something to do.
    pub is_owed: bool,
}

/// The boot entries of a Linux machine. It is closed when it is dropped, and may be sent to another thread. No lock is
/// waited for: [`ErrorKind::Busy`] says that another program has it. A change that leads to what is there already writes
/// nothing.
///
/// # Errors
///
/// Each call may answer a [`MachineError`] with [`ErrorKind::System`], [`ErrorKind::NoMemory`] and
/// [`ErrorKind::Refused`], and each change besides one with [`ErrorKind::Busy`], [`ErrorKind::TakenBack`] and
/// [`ErrorKind::Unsettled`].
pub struct Machine(Handle);

impl fmt::Debug for Machine {
    fn fmt(&self, formatter: &mut fmt::Formatter<'_>) -> fmt::Result {
        formatter.debug_struct("Machine").finish_non_exhaustive()
    }
}

#[allow(clippy::missing_errors_doc)] // Those of each call are at the type.
impl Machine {
    /// The machine that this runs on.
    pub fn open() -> Result<Machine, MachineError> {
        MachineOptions::new().open()
    }

    /// Has each change from now on kept with these words, or without words with the name of the library and of the call.
    pub fn set_words<W: AsRef<str>>(&mut self, words: &[W]) -> Result<(), MachineError> {
        let words: Result<Vec<CString>, MachineError> = words.iter().map(|word| text_for_c(word.as_ref())).collect();
        Ok(self.0.words(&words?)?)
    }

    /// What the variables are in now. What is neither a folder nor a variable file is refused.
    pub fn place(&mut self) -> Result<MachinePlace, MachineError> {
        Ok(match self.0.place()? {
            PLACE_FOLDER => MachinePlace::Folder,
            PLACE_FILE => MachinePlace::File,
            other => MachinePlace::Other(other),
        })
    }

    /// The variables as they are now, without their attributes: a set, as the calls of [`vars`] take it.
    pub fn variables(&mut self) -> Result<Vec<u8>, MachineError> {
        Ok(self.0.data()?)
    }

    /// The variables as the machine keeps them, as a set: the data of Boot####, BootOrder, BootNext and Timeout begin with
    /// their attributes, in four bytes. So [`Moves::restore`](crate::Moves::restore) takes them.
    pub fn kept(&mut self) -> Result<Vec<u8>, MachineError> {
        Ok(self.0.variables()?)
    }

    /// What a boot would try: faults [`VarsBadOrder`](Fault::VarsBadOrder) and [`VarsBadNext`](Fault::VarsBadNext).
    pub fn plan(&mut self) -> Result<MachinePlan, MachineError> {
        let told = self.0.plan()?;
        Ok(MachinePlan {
            plan: vars::Plan::of(told.next, told.numbers),
            order: told.order.into_iter().map(EntryNumber).collect(),
            current: entry_number(told.current),
            timeout: u16::try_from(told.timeout).ok(),
        })
    }

    /// The entries, whose numbers rise.
    pub fn entries(&mut self) -> Result<Vec<MachineEntry>, MachineError> {
        self.0.entries()?.into_iter().map(entry).collect()
    }

    /// What the journal says of requests.
    pub fn journal(&mut self) -> Result<MachineJournal, MachineError> {
        let told = self.0.journal()?;
        Ok(MachineJournal { next_number: told.next_number, identity: told.identity, is_owed: told.is_owed })
    }

    /// Whether an earlier change has left something to do. The next change does it first, and [`Machine::settle`] alone;
    /// what is left of Driver#### and SysPrep#### only that.
    pub fn owed(&mut self) -> Result<bool, MachineError> {
        Ok(self.0.owed()?)
    }

    /// What is to be told of the last call besides, a line each.
    pub fn remarks(&self) -> Vec<String> {
        self.0.remarks()
    }

    /// The load option of a loader. Nothing is changed. Faults are [`MachineFault::NoPartition`],
    /// [`MachineFault::UnknownPartition`], [`MachineFault::BadLoaderName`], [`MachineFault::NoDevice`] and
    /// [`MachineFault::OtherPartition`], and those of load options.
    pub fn loader(&mut self, loader: &Loader<'_>) -> Result<LoadOption, MachineError> {
        let bytes = self.0.loader(&loader.for_c()?)?;
        LoadOption::try_from(bytes).map_err(MachineError::of_library)
    }

    /// Adds an entry: a load option.
    pub fn add(&mut self, addition: &Addition<'_>, mode: Mode) -> Result<MachineChange, MachineError> {
        let wanted = Wanted::Add {
            option: addition.option.as_ref(),
            number: number_of(addition.number.map(|entry| entry.0)),
            position: position_of(addition.position),
        };
        self.change(&wanted, flag(addition.again, AGAIN), mode)
    }

    /// Adds an entry for a loader. One that firmware wouldn't start is refused, [`MachineFault::NotStarted`], unless
    /// `force` says otherwise.
    pub fn add_loader(&mut self, addition: &LoaderAddition<'_>, mode: Mode) -> Result<MachineChange, MachineError> {
        let wanted = Wanted::AddLoader {
            loader: &addition.loader.for_c()?,
            number: number_of(addition.number.map(|entry| entry.0)),
            position: position_of(addition.position),
        };
        self.change(&wanted, flag(addition.again, AGAIN) | flag(addition.force, FORCE), mode)
    }

    /// Deletes these entries, takes their numbers out of BootOrder, and deletes BootNext if it names one.
    pub fn remove(&mut self, entries: &[EntryNumber], mode: Mode) -> Result<MachineChange, MachineError> {
        self.change(&Wanted::Remove(&numbers(entries)), 0, mode)
    }

    /// Gives these entries LOAD_OPTION_ACTIVE.
    pub fn activate(&mut self, entries: &[EntryNumber], mode: Mode) -> Result<MachineChange, MachineError> {
        self.change(&Wanted::Activate(&numbers(entries)), 0, mode)
    }

    /// Takes LOAD_OPTION_ACTIVE from these entries.
    pub fn deactivate(&mut self, entries: &[EntryNumber], mode: Mode) -> Result<MachineChange, MachineError> {
        self.change(&Wanted::Deactivate(&numbers(entries)), 0, mode)
    }

    /// Puts these entries first in BootOrder, in this sequence.
    pub fn first(&mut self, entries: &[EntryNumber], mode: Mode) -> Result<MachineChange, MachineError> {
        self.change(&Wanted::First(&numbers(entries)), 0, mode)
    }

    /// Makes BootOrder another one.
    pub fn order(&mut self, new: &NewOrder<'_>, mode: Mode) -> Result<MachineChange, MachineError> {
        self.change(&Wanted::Order(&numbers(new.numbers)), flag(new.only, ONLY) | flag(new.stale, STALE), mode)
    }

    /// Has the next boot try this entry first, once, by BootNext, or deletes BootNext.
    pub fn next(&mut self, entry: Option<EntryNumber>, mode: Mode) -> Result<MachineChange, MachineError> {
        self.change(&Wanted::Next(number_of(entry.map(|entry| entry.0))), 0, mode)
    }

    /// Has firmware wait for so many seconds, by Timeout, or deletes Timeout.
    pub fn timeout(&mut self, seconds: Option<u16>, mode: Mode) -> Result<MachineChange, MachineError> {
        self.change(&Wanted::Timeout(number_of(seconds)), 0, mode)
    }

    /// Brings the boot manager's variables to those of a set, as [`Machine::variables`] gives it. Timeout stays if the set
    /// has none, and in a folder an entry that is no load option is left out, which a remark tells. A set without an entry is refused,
    /// [`MachineFault::Empty`], unless `empty` says that all are to be taken out.
    pub fn write(&mut self, set: &[u8], empty: bool, mode: Mode) -> Result<MachineChange, MachineError> {
        self.change(&Wanted::Write(set), flag(empty, EMPTY), mode)
    }

    /// Runs the frames of a stream over the machine, in their order: the reply to each. Each request is applied once,
    /// however often it is delivered. The state folder has to be there, since without its journal each would be applied
    /// again. Faults are those of streams; [`ErrorKind::Unmet`] says that something isn't as it is
    /// expected.
    pub fn update(
        &mut self,
        stream: &[u8],
        expected: Option<&Expected<'_>>,
        mode: Mode,
    ) -> Result<Vec<MachineReply>, MachineError> {
        let order = expected.and_then(|all| all.order.flatten()).map(numbers).unwrap_or_default();
        let expected = expected.map(|all| raw_expected(all, &order));
        let wanted = Wanted::Update { stream, expected: expected.as_ref() };
        let told = self.0.change(&wanted, flag_of(mode))?;
        Ok(told
            .replies
            .iter()
            .map(|(reply, same)| MachineReply { reply: Reply::of(reply, Vec::new()), same: Same::of(*same) })
            .collect())
    }

    /// Brings back what was there before the last change, whoever made it. The next call undoes the one before that.
    /// [`ErrorKind::NothingToUndo`] says that nothing is kept, and [`ErrorKind::Changed`] that something else has changed
    /// the variables since, unless `force` says that this is to be undone too.
    pub fn undo(&mut self, force: bool, mode: Mode) -> Result<MachineChange, MachineError> {
        self.change(&Wanted::Undo, flag(force, FORCE), mode)
    }

    /// Does what an earlier change has left to do, and no more, in a folder also of Driver#### and SysPrep####.
    pub fn settle(&mut self, mode: Mode) -> Result<MachineChange, MachineError> {
        self.change(&Wanted::Settle, 0, mode)
    }

    fn change(&mut self, wanted: &Wanted<'_>, flags: u32, mode: Mode) -> Result<MachineChange, MachineError> {
        Ok(MachineChange::of(self.0.change(wanted, flags | flag_of(mode))?))
    }
}

impl MachineChange {
    fn of(told: Told) -> MachineChange {
        MachineChange {
            is_changed: told.is_changed,
            is_settled: told.is_settled,
            edited: EditOutcome::of(told.edited, told.entry),
            record: Some(told.record).filter(|record| *record != 0),
            before: told.before,
            after: told.after,
            remarks: told.remarks,
        }
    }
}

fn entry(told: linux::Entry) -> Result<MachineEntry, MachineError> {
    let option = match LoadOption::try_from(&told.option[..]) {
        Ok(option) => Ok(option),
        Err(Error::Refused(refusal)) => Err(refusal),
        Err(error) => return Err(MachineError::of_library(error)),
    };
    Ok(MachineEntry {
        // No number of an entry has more than 16 bits.
        number: EntryNumber(told.number as u16),
        data: told.option,
        option,
        state: EntryState::of(told.state),
        order_place: if told.position == NO_ENTRY { None } else { Some(told.position as usize) },
        is_next: told.is_next,
        is_current: told.is_current,
    })
}

fn numbers(entries: &[EntryNumber]) -> Vec<u16> {
    entries.iter().map(|entry| entry.0).collect()
}

fn number_of(number: Option<u16>) -> u32 {
    number.map_or(NO_ENTRY, u32::from)
}

fn position_of(position: Position) -> u32 {
    match position {
        Position::Last => POSITION_LAST,
        Position::First => POSITION_FIRST,
        Position::None => POSITION_NONE,
    }
}

fn flag(is_wanted: bool, flag: u32) -> u32 {
    if is_wanted {
        flag
    } else {
        0
    }
}

fn flag_of(mode: Mode) -> u32 {
    flag(mode == Mode::DryRun, DRY_RUN)
}

/// What is expected, with the numbers of the order that it has.
fn raw_expected<'a>(expected: &Expected<'_>, order: &'a [u16]) -> linux::Expected<'a> {
    let journal = match expected.journal {
        None => 0,
        Some(None) => EXPECTS_NO_JOURNAL,
        Some(Some(_)) => EXPECTS_JOURNAL,
    };
    let of_order = match expected.order {
        None => 0,
        Some(None) => EXPECTS_NO_ORDER,
        Some(Some(_)) => EXPECTS_ORDER,
    };
    linux::Expected {
        what: journal | of_order | flag(expected.number.is_some(), EXPECTS_NUMBER),
        number: expected.number.unwrap_or_default(),
        journal: expected.journal.flatten().unwrap_or_default(),
        order,
    }
}

fn path_for_c(path: &Path) -> Result<CString, MachineError> {
    CString::new(path.as_os_str().as_bytes()).map_err(|_| zero_character())
}

fn text_for_c(text: &str) -> Result<CString, MachineError> {
    CString::new(text).map_err(|_| zero_character())
}

fn zero_character() -> MachineError {
    MachineError::of(REFUSED, "a path or a text has a zero character, which would end it".to_owned())
}

/// What became of a call over a machine that failed.
#[derive(Clone, Copy, Debug, PartialEq, Eq, Hash)]
#[non_exhaustive]
pub enum ErrorKind {
    /// What is there, or was handed in, doesn't allow it: [`MachineError::refusal`] says why. Nothing is changed.
    Refused,
    /// Nothing is kept that could be undone.
    NothingToUndo,
    /// Memory was refused. Nothing is changed.
    NoMemory,
    /// The system refused to read or write something. Nothing is changed.
    System,
    /// Another program has the lock of the state folder or of the variables: try again later. Nothing is changed.
    Busy,
    /// The system refused a step of the change, and what was made before it is taken back: it hasn't happened.
    TakenBack,
    /// The system refused a step of the change, and then one that takes it back. The next change, or
    /// [`Machine::settle`], begins with what is left: it may still happen.
    Unsettled,
    /// Something isn't as it was expected, and no request was run.
    Unmet,
    /// Something else has changed the variables since the change that is to be undone: [`MachineError::change`] has in
    /// `before` what was there after that change, and in `after` what is there now. Nothing is changed.
    Changed,
    /// A status that this crate doesn't know.
    Other(u32),
}

/// At which step a call over a machine failed.
#[derive(Clone, Copy, Debug, PartialEq, Eq, Hash)]
#[non_exhaustive]
pub enum MachineStage {
    /// At none: it was what the call was handed, or memory.
    None,
    /// To make, look at or lock the state folder.
    State,
    /// To lock or read the folder of the variables.
    Variables,
    /// To find what the machine is called, or the identity of its start.
    Name,
    /// To read the journal, to make it this machine's own, or to give it an identity.
    Journal,
    /// To finish, or take back, what an earlier change has left. Nothing else was done.
    Settling,
    /// To compute what the change leads to: the words or the variables don't allow it.
    Run,
    /// To read or keep what was there before a change.
    Record,
    /// To make the change.
    Change,
    /// To find where the file of a loader is.
    Loader,
    /// A step that this crate doesn't know.
    Other(u32),
}

/// What a call that failed has left. All is as it was before it, but for what an earlier change had left.
#[derive(Clone, Copy, Debug, PartialEq, Eq, Hash)]
#[non_exhaustive]
pub enum Left {
    /// Nothing of the change was made.
    Nothing,
    /// Some of the change had been made, and is taken back.
    TakenBack,
    /// The journal has what is left to do, and the next change begins with it.
    Owed,
    /// The variable file has the change, and a loss of power may bring back what it was before.
    Unsure,
    /// Something that this crate doesn't know.
    Other(u32),
}

/// Why something of a machine is refused.
#[derive(Clone, Copy, Debug, PartialEq, Eq)]
#[non_exhaustive]
pub struct MachineRefusal {
    /// The fault.
    pub fault: MachineFault,
    /// Where it is, if it has a place: of an edit the number of an entry.
    pub place: Option<usize>,
    /// The fault within, and where that is, counted from `place`.
    pub within: Option<(Fault, Option<usize>)>,
}

/// A call over a machine failed. As a text it is one line that says all of it, and the error of the system, if that refused
/// something, is its source.
pub struct MachineError(Box<Details>);

struct Details {
    kind: ErrorKind,
    stage: MachineStage,
    left: Left,
    system: Option<io::Error>,
    refusal: Option<MachineRefusal>,
    path: Option<PathBuf>,
    second_system: Option<io::Error>,
    second_path: Option<PathBuf>,
    change: Option<MachineChange>,
    text: String,
}

impl MachineError {
    /// What became of it.
    pub fn kind(&self) -> ErrorKind {
        self.0.kind
    }

    /// At which step it failed.
    pub fn stage(&self) -> MachineStage {
        self.0.stage
    }

    /// What is left of the change.
    pub fn left(&self) -> Left {
        self.0.left
    }

    /// The error of the system, if it refused something.
    pub fn system(&self) -> Option<&io::Error> {
        self.0.system.as_ref()
    }

    /// Why it is refused, unless the system refused it.
    pub fn refusal(&self) -> Option<MachineRefusal> {
        self.0.refusal
    }

    /// The path of the file or folder it was about.
    pub fn path(&self) -> Option<&Path> {
        self.0.path.as_deref()
    }

    /// Of [`ErrorKind::Unsettled`] why taking the change back failed too.
    pub fn second_system(&self) -> Option<&io::Error> {
        self.0.second_system.as_ref()
    }

    /// The path of what that was about.
    pub fn second_path(&self) -> Option<&Path> {
        self.0.second_path.as_deref()
    }

    /// Of [`ErrorKind::Changed`] what has changed since.
    pub fn change(&self) -> Option<&MachineChange> {
        self.0.change.as_ref()
    }

    /// What the other calls of this crate refuse, of what the library over machines gave.
    fn of_library(error: Error) -> MachineError {
        let status = if error == Error::NoMemory { NO_MEMORY } else { REFUSED };
        MachineError::of(status, error.to_string())
    }

    fn of(status: u32, text: String) -> MachineError {
        MachineError::from(Box::new(Failure { status, text, ..Failure::default() }))
    }
}

impl From<Box<Failure>> for MachineError {
    fn from(told: Box<Failure>) -> MachineError {
        let kind = ErrorKind::of(told.status);
        MachineError(Box::new(Details {
            kind,
            stage: MachineStage::of(told.at),
            left: Left::of(told.left),
            system: system_error(told.system_error),
            refusal: MachineRefusal::of(&told.refusal),
            path: told.path,
            second_system: system_error(told.second_error),
            second_path: told.second_path,
            change: told.change.filter(|_| kind == ErrorKind::Changed).map(MachineChange::of),
            text: told.text,
        }))
    }
}

impl ErrorKind {
    fn of(status: u32) -> ErrorKind {
        match status {
            REFUSED => ErrorKind::Refused,
            ABSENT => ErrorKind::NothingToUndo,
            NO_MEMORY => ErrorKind::NoMemory,
            SYSTEM => ErrorKind::System,
            BUSY => ErrorKind::Busy,
            TAKEN_BACK => ErrorKind::TakenBack,
            UNSETTLED => ErrorKind::Unsettled,
            UNMET => ErrorKind::Unmet,
            CHANGED => ErrorKind::Changed,
            other => ErrorKind::Other(other),
        }
    }
}

fn system_error(number: i32) -> Option<io::Error> {
    if number == 0 {
        None
    } else {
        Some(io::Error::from_raw_os_error(number))
    }
}

impl fmt::Display for MachineError {
    fn fmt(&self, formatter: &mut fmt::Formatter<'_>) -> fmt::Result {
        match self.kind() {
            ErrorKind::NoMemory => formatter.write_str("out of memory"),
            _ => formatter.write_str(&self.0.text),
        }
    }
}

impl fmt::Debug for MachineError {
    fn fmt(&self, formatter: &mut fmt::Formatter<'_>) -> fmt::Result {
        write!(formatter, "MachineError({:?} at {:?}: {self})", self.kind(), self.stage())
    }
}

impl std::error::Error for MachineError {
    fn source(&self) -> Option<&(dyn std::error::Error + 'static)> {
        self.0.system.as_ref().map(|error| error as &(dyn std::error::Error + 'static))
    }
}

impl MachineStage {
    fn of(number: u32) -> MachineStage {
        match number {
            AT_NONE => MachineStage::None,
            AT_STATE => MachineStage::State,
            AT_VARIABLES => MachineStage::Variables,
            AT_NAME => MachineStage::Name,
            AT_JOURNAL => MachineStage::Journal,
            AT_SETTLING => MachineStage::Settling,
            AT_RUN => MachineStage::Run,
            AT_RECORD => MachineStage::Record,
            AT_CHANGE => MachineStage::Change,
            AT_LOADER => MachineStage::Loader,
            other => MachineStage::Other(other),
        }
    }
}

impl Left {
    fn of(number: u32) -> Left {
        match number {
            LEFT_NOTHING => Left::Nothing,
            LEFT_TAKEN_BACK => Left::TakenBack,
            LEFT_OWED => Left::Owed,
            LEFT_UNSURE => Left::Unsure,
            other => Left::Other(other),
        }
    }
}

impl MachineRefusal {
    fn of(told: &RawRefusal) -> Option<MachineRefusal> {
        let refusal = Refusal::if_any(told)?;
        Some(MachineRefusal { fault: MachineFault::of(told.kind), place: refusal.place, within: refusal.within })
    }
}

macro_rules! machine_faults {
    ($($(#[$words:meta])* $name:ident = $number:literal,)*) => {
        /// Why something of a machine is refused: a fault of `bootkeep.h`, or one that only machines have.
        #[derive(Clone, Copy, Debug, PartialEq, Eq, Hash)]
        #[non_exhaustive]
        pub enum MachineFault {
            /// One of the crate's other calls.
            Library(Fault),
            $($(#[$words])* $name,)*
        }

        impl MachineFault {
            fn of(number: u32) -> MachineFault {
                match number {
                    $($number => MachineFault::$name,)*
                    other => MachineFault::Library(Fault::from(other)),
                }
            }

            /// Its number.
            pub fn number(self) -> u32 {
                match self {
                    MachineFault::Library(fault) => fault.number(),
                    $(MachineFault::$name => $number,)*
                }
            }
        }
    };
}

machine_faults! {
    /// The group of the state folder, or others, may write it: who can do that could have anything done to the machine.
    SharedState = 0x8001,
    /// The state folder belongs neither to root nor to the user.
    ForeignState = 0x8002,
    /// No folder is where the state folder is to be.
    NoFolder = 0x8003,
    /// A link, a pipe, a device, a socket or a folder is where a file is to be, or none of a folder and a file where the
    /// variables are to be.
    Irregular = 0x8004,
    /// A file has more bytes than are read of it.
    TooMuch = 0x8005,
    /// No variable of the boot manager is in the folder, and no efivarfs is mounted there.
    NoVariables = 0x8006,
    /// Two files show one variable.
    Twice = 0x8007,
    /// The journal is another machine's.
    OfAnother = 0x8008,
    /// The journal may be another machine's: which one this is can't be read, as by another user than root.
    UnknownMachine = 0x8009,
    /// The journal, or the record, of the change would be longer than what is read of one.
    TooLong = 0x800c,
    /// The change is of a variable that has no value, or one that is too long for a set.
    LeftOut = 0x800d,
    /// The BootOrder that is to be brought back has an odd number of bytes, which firmware refuses.
    OrderRefused = 0x800e,
    /// The BootNext that is to be brought back doesn't have two bytes.
    NextRefused = 0x800f,
    /// The Timeout that is to be brought back doesn't have two bytes.
    TimeoutRefused = 0x8010,
    /// The set has no entry, so that all entries would be taken out.
    Empty = 0x8011,
    /// The loader's file system isn't on a partition of a disk that firmware sees.
    NoPartition = 0x8012,
    /// The system doesn't tell what the loader's partition is known by.
    UnknownPartition = 0x8013,
    /// The name of the loader can't be one that firmware reads: it has a backslash, or a character that UCS-2 hasn't got.
    BadLoaderName = 0x8014,
    /// Firmware doesn't start the loader: the fault within is one of images.
    NotStarted = 0x8015,
    /// The variable, or what is at the path of the variables, isn't what was read of it any more: something else has
    /// changed it meanwhile.
    ChangedMeanwhile = 0x8016,
    /// A flag isn't one of the call, or a number is none that it takes.
    BadWords = 0x8017,
    /// After the last record of the variable file something isn't erased, at this place: there may have been more
    /// variables, and a change would be written over them.
    Damaged = 0x8018,
    /// The identity of the start is needed, and the system doesn't tell that of a variable file's machine.
    NoStart = 0x8019,
    /// At the path of a disk there is no block device that the system knows by this name.
    NoDevice = 0x801a,
    /// The disk hasn't got a partition of this number, or the partition that is named has another one.
    OtherPartition = 0x801b,
}
