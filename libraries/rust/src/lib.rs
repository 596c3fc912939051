//! Device paths, load options, sets of UEFI boot variables, and numbered requests over them: the library that
//! `bootkeep.h` declares, whose calls are proved. Each call returns for every input, and refuses what isn't
//! what it has to be, with the number and the place of its first fault.
//!
//! Values are read of bytes, which they give again: [`DevicePath`], [`LoadOption`]. Sets are bytes, which the calls of
//! [`vars`] read and make:
//!
//! ```
//! use bootkeep::{option, vars, DevicePath, EntryNumber, LoadOption};
//!
//! # fn main() -> Result<(), Box<dyn std::error::Error>> {
//! let path: DevicePath = r"PciRoot(0x0)/Pci(0x1,0x0)/\EFI\a.efi".parse()?;
//! let option = LoadOption::new(option::ACTIVE, "Mine", &[path], b"")?;
//! let variables = vars::put(vars::EMPTY, &EntryNumber(5).name(), option.as_ref())?;
//! let variables = vars::put(&variables, "BootOrder", &[5, 0])?;
//! assert_eq!(vars::plan(&variables)?.to_string(), "plan next - normal 0005");
//! for entry in vars::entries(&variables)? {
//!     assert_eq!(entry.to_string(), r"Boot0005 normal Mine PciRoot(0x0)/Pci(0x1,0x0)/File(\EFI\a.efi)");
//! }
//! # Ok(())
//! # }
//! ```
//!
//! A keeper applies numbered requests, and tells what came of each; a [`SetFile`] stores it besides:
//!
//! ```
//! use bootkeep::frame::Request;
//! use bootkeep::{vars, EntryNumber, Keeper};
//!
//! # fn main() -> Result<(), bootkeep::Error> {
//! let mut keeper = Keeper::open(&vars::put(vars::EMPTY, "Boot0001", b"any")?)?;
//! let reply = keeper.request(Request::Next(EntryNumber(1)))?;
//! assert_eq!(reply.to_string(), "applied Done 1");
//! assert_eq!(vars::get(&keeper.set()?, "BootNext")?, [1, 0]);
//! # Ok(())
//! # }
//! ```
//!
//! What isn't what it has to be is refused, with the fault and its place:
//!
//! ```
//! use bootkeep::{DevicePath, Error, Fault};
//!
//! match DevicePath::try_from(&b""[..]) {
//!     Err(Error::Refused(why)) => assert_eq!((why.fault, why.place), (Fault::PathNoEnd, Some(0))),
//!     other => panic!("{other:?}"),
//! }
//! ```

#![deny(unsafe_code)]
#![warn(missing_docs)]

mod edit;
mod entry;
mod error;
mod file;
pub mod frame;
pub mod image;
mod keeper;
#[allow(unsafe_code)]
mod library;
#[cfg(feature = "machine")]
#[allow(unsafe_code)]
mod linux;
#[cfg(feature = "machine")]
pub mod machine;
#[cfg(feature = "machine")]
mod machine_numbers;
mod moves;
pub mod notes;
mod numbers;
pub mod option;
pub mod path;
pub mod record;
pub mod store;
pub mod vars;
#[cfg(feature = "serde")]
mod with_serde;

pub use entry::{BadEntryNumber, EntryNumber};
pub use error::{Error, Fault, Refusal};
pub use file::{FileError, SetFile};
pub use keeper::{Keeper, Outcome, Reply};
#[cfg(feature = "machine")]
pub use machine::{Machine, MachineError};
pub use moves::{Became, End, MachineState, Move, Moves, Same};
pub use numbers::{
    DATA_MAX, FRAME_MAX, IDENTITY_LEN, LIST_MAX, MACHINE_MAX, NAME_MAX, NOTES_MAX, NO_NUMBER, ORDER_MAX, VERSION,
    WORD_MAX,
};
pub use option::LoadOption;
pub use path::{DevicePath, Node, NodeFault};

/// The version of the interface that the library has.
pub fn version() -> u32 {
    library::version()
}

/// Delivers each frame of a stream to a keeper of the set: the set after them, and a line for each reply, ended by a
/// line feed.
///
/// # Errors
///
/// A fault `Set..` of the set; otherwise a fault `Stream..`, of which [`Fault::StreamRest`] has a place; otherwise a
/// fault `Vars..`; [`Error::NoMemory`].
pub fn run(set: &[u8], stream: &[u8]) -> Result<(Vec<u8>, String), Error> {
    let (after, lines) = library::run(set, stream)?;
    Ok((after, ascii(lines)))
}

/// Whether a journal, the bytes of its file after its notes, tells of nothing that is left to do; so it is without such a
/// file, of no bytes.
///
/// # Errors
///
/// A fault `Journal..`; [`Error::NoMemory`].
pub fn journal_is_idle(journal: &[u8]) -> Result<bool, Error> {
    Ok(library::journal_is_idle(journal)? != 0)
}

/// The word of a number, or the number if the library has no word for it.
fn word(of: library::WordOf, number: u32) -> String {
    library::word(of, number).map_or_else(|_| format!("{number:#06x}"), ascii)
}

/// A text of the library in UTF-8.
fn utf8(text: Vec<u8>) -> String {
    String::from_utf8(text).unwrap_or_else(|error| String::from_utf8_lossy(error.as_bytes()).into_owned())
}

/// A text of the library, which is ASCII.
fn ascii(text: Vec<u8>) -> String {
    text.into_iter().map(char::from).collect()
}
