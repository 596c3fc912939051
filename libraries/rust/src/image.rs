//! Files that firmware starts, and the signature lists by which Secure Boot tells of them.

use crate::error::{Error, Refusal};
use crate::library;
use crate::numbers::*;

/// Which part of firmware finds a fault.
#[derive(Clone, Copy, Debug, PartialEq, Eq, Hash)]
#[non_exhaustive]
pub enum Stage {
    /// The boot manager, for which there is no such file then.
    BootManager,
    /// LoadImage. With Secure Boot the faults up to `ImageDebugBeyondFile` are found before it.
    Loader,
    /// StartImage.
    Start,
    /// One that this crate doesn't know.
    Other(u32),
}

/// What comes of a fault.
#[derive(Clone, Copy, Debug, PartialEq, Eq, Hash)]
#[non_exhaustive]
pub enum Effect {
    /// Firmware doesn't start the file.
    Refused,
    /// Firmware doesn't look at it, and goes wrong: it writes after the image's memory, or runs what isn't in it.
    Unsafe,
    /// The file's bytes don't tell whether it starts: the machine decides.
    Undecided,
    /// One that this crate doesn't know.
    Other(u32),
}

/// The first thing that isn't in an image as firmware wants it.
#[derive(Clone, Copy, Debug, PartialEq, Eq)]
#[non_exhaustive]
pub struct ImageFault {
    /// The fault `Image..`, at the field that has it, or at a section's header.
    pub refusal: Refusal,
    /// Which part of firmware finds it.
    pub stage: Stage,
    /// What comes of it.
    pub effect: Effect,
}

/// A list of db, dbx or KEK (UEFI 2.10, 32.4.1), where it is in the data.
#[derive(Clone, Copy, Debug, PartialEq, Eq)]
#[non_exhaustive]
pub struct SignatureList<'a> {
    /// Where it begins.
    pub place: usize,
    /// The GUID of its type, as it is stored.
    pub kind: &'a [u8],
    /// Its header, which no type of the standard has.
    pub header: &'a [u8],
    /// How many bytes each signature has.
    pub signature_len: usize,
    /// The bytes of its signatures, each of the GUID of its owner, in 16 bytes, and its data.
    pub signatures: &'a [u8],
}

/// What firmware for x86-64 asks of a file that an entry names, all its bytes: the first fault, if there is one. Without
/// one the file may still be refused, as by Secure Boot.
pub fn check(image: &[u8]) -> Result<Option<ImageFault>, Error> {
    let found = library::image_check(image)?;
    Ok(found.map(|(told, stage, effect)| ImageFault {
        refusal: Refusal::of(&told),
        stage: match stage {
            STAGE_BOOT_MANAGER => Stage::BootManager,
            STAGE_LOADER => Stage::Loader,
            STAGE_START => Stage::Start,
            other => Stage::Other(other),
        },
        effect: match effect {
            EFFECT_REFUSED => Effect::Refused,
            EFFECT_UNSAFE => Effect::Unsafe,
            EFFECT_UNDECIDED => Effect::Undecided,
            other => Effect::Other(other),
        },
    }))
}

/// The Authenticode digest of an image by SHA-256, in 32 bytes, by which a signature, db and dbx tell of it.
///
/// # Errors
///
/// A fault `Image..`; [`Error::NoMemory`].
pub fn digest(image: &[u8]) -> Result<Vec<u8>, Error> {
    library::image_digest(image)
}

/// The lists that the data of db, dbx or KEK is, in their order. Nothing of them is copied.
///
/// # Errors
///
/// A fault `Lists..` at the list that has it; [`Error::NoMemory`].
pub fn signature_lists(bytes: &[u8]) -> Result<Vec<SignatureList<'_>>, Error> {
    let lists = library::signature_lists(bytes)?;
    let at = |list: library::RawList| {
        let start = list.place + 28;
        let first = start + list.header_len;
        SignatureList {
            place: list.place,
            kind: &bytes[list.place..list.place + 16],
            header: &bytes[start..first],
            signature_len: list.signature_len,
            signatures: &bytes[first..list.place + list.len],
        }
    };
    Ok(lists.into_iter().map(at).collect())
}
