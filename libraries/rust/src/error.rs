//! What the calls refuse.

use crate::library::{RawRefusal, WordOf};
use crate::numbers::{NO_KIND, NO_PLACE};
use std::fmt;
use std::hash::{Hash, Hasher};

/// Why a call has no answer.
#[derive(Clone, Copy, Debug, PartialEq, Eq)]
#[non_exhaustive]
pub enum Error {
    /// What was handed in isn't what it has to be.
    Refused(Refusal),
    /// There is no variable of the name.
    Absent,
    /// Bytes come after a device path that has to be all of them.
    #[non_exhaustive]
    BytesLeft {
        /// Where the path ends.
        place: usize,
        /// How many bytes come after it.
        count: usize,
    },
    /// Memory was refused.
    NoMemory,
    /// The keeper, or the command over a machine, isn't open.
    Closed,
    /// The library answers a status that this crate doesn't know.
    Other(u32),
}

/// Why what was handed in is refused.
#[derive(Clone, Copy, Debug, PartialEq, Eq)]
pub struct Refusal {
    /// The fault.
    pub fault: Fault,
    /// Where it is, in bytes from the first one of what was handed in, if it has a place.
    pub place: Option<usize>,
    /// The fault within, and where that is, counted from `place`.
    pub within: Option<(Fault, Option<usize>)>,
}

impl Refusal {
    pub(crate) fn of(told: &RawRefusal) -> Refusal {
        let inner = (Fault::from(told.inner_kind), place_of(told.inner_place));
        Refusal {
            fault: Fault::from(told.kind),
            place: place_of(told.place),
            within: if told.inner_kind == NO_KIND { None } else { Some(inner) },
        }
    }

    /// The same, unless it stands for none.
    pub(crate) fn if_any(told: &RawRefusal) -> Option<Refusal> {
        if told.kind == NO_KIND {
            None
        } else {
            Some(Refusal::of(told))
        }
    }
}

fn place_of(place: usize) -> Option<usize> {
    if place == NO_PLACE {
        None
    } else {
        Some(place)
    }
}

macro_rules! faults {
    ($($(#[$words:meta])* $name:ident = $number:literal,)*) => {
        /// A fault, by the numbers of `bootkeep.h`. None is ever given out again. Two are the same if their numbers are,
        /// so [`Fault::Other`] with a number that is known is the known one; `from` makes that of a number.
        #[derive(Clone, Copy, Debug)]
        #[non_exhaustive]
        pub enum Fault {
            $($(#[$words])* $name,)*
            /// One that this crate doesn't know.
            Other(u32),
        }

        impl From<u32> for Fault {
            fn from(number: u32) -> Fault {
                match number {
                    $($number => Fault::$name,)*
                    other => Fault::Other(other),
                }
            }
        }

        impl Fault {
            /// Its number.
            pub fn number(self) -> u32 {
                match self {
                    $(Fault::$name => $number,)*
                    Fault::Other(number) => number,
                }
            }
        }
    };
}

faults! {
    /// No byte remains where a node must be.
    PathNoEnd = 0x0101,
    /// One to three bytes remain, fewer than the header of a node has.
    PathShortHeader = 0x0102,
    /// The node states a length below 4, that of its header alone.
    PathBadLength = 0x0103,
    /// The node states more bytes than remain.
    PathPastEnd = 0x0104,
    /// The node has type 0x7F and isn't an end node.
    PathBadEnd = 0x0105,
    /// What is at this place isn't a segment.
    TextBadSegment = 0x0201,
    /// The argument at this place must be a number and isn't a number's text.
    TextBadNumber = 0x0202,
    /// The argument at this place is out of its range.
    TextOutOfRange = 0x0203,
    /// The segment at this place is a `Path` of type 0x7F, that of the end nodes.
    TextBadEnd = 0x0204,
    /// The text isn't UTF-8 from this place on. This comes before any other fault of a text.
    TextNotUtf8 = 0x0205,
    /// No node has the name at this place. This and the three after it are of texts with names of nodes alone.
    TextUnknownName = 0x0206,
    /// The argument at this place isn't what the node has there.
    TextBadArgument = 0x0207,
    /// At this place the segment ends before it has all its arguments, or has one more.
    TextBadCount = 0x0208,
    /// What the arguments of the segment at this place say is no data of its node.
    TextBadData = 0x0209,
    /// There are fewer bytes than the six of the attributes and of the length of the list.
    OptionShort = 0x0301,
    /// No zero unit closes the description.
    OptionNoTerminator = 0x0302,
    /// The list of paths has fewer bytes than the option states.
    OptionListPastEnd = 0x0303,
    /// The list of paths has no byte.
    OptionEmptyList = 0x0304,
    /// What begins at this place isn't a device path: the fault within is that path's.
    OptionPath = 0x0305,
    /// A character of the description is zero.
    OptionZeroUnit = 0x0306,
    /// The paths have more bytes than the list of an option can have, 65,535.
    OptionListTooLong = 0x0307,
    /// The description isn't UTF-8 from this place of it on.
    OptionNotUtf8 = 0x0308,
    /// Half of a pair of units stands alone in the description, which is no text.
    OptionNotUtf16 = 0x0309,
    /// The file doesn't begin with the four bytes `BVS1`.
    SetBadMagic = 0x0401,
    /// The file ends within the record.
    SetTruncated = 0x0402,
    /// The name isn't one to 64 characters from 0x21 to 0x7E.
    SetBadName = 0x0403,
    /// The data is to have no byte, or more than 1,048,576.
    SetBadData = 0x0404,
    /// The name isn't above that of the record before, by bytes.
    SetNotRising = 0x0405,
    /// The bytes of BootOrder are odd in number, or more than two for each of 65,536 entries.
    VarsBadOrder = 0x0501,
    /// BootNext has another number of bytes than two.
    VarsBadNext = 0x0502,
    /// The bytes of BootKeepState aren't ones that a keeper stores. Only keepers and runs look at it.
    VarsBadState = 0x0503,
    /// The name isn't one to 64 characters from 0x21 to 0x7E.
    PutBadName = 0x0601,
    /// There is no data. A variable without data is deleted, and never stored.
    PutEmptyData = 0x0602,
    /// The data has more than 1,048,576 bytes.
    PutDataTooLong = 0x0603,
    /// A header doesn't begin with 0x42 0x51.
    StreamBadMagic = 0x0701,
    /// The version of a header is none of 1 to 3.
    StreamBadVersion = 0x0702,
    /// A payload is to have more bytes than a frame can have.
    StreamTooLong = 0x0703,
    /// The last frame isn't whole. The place is how many bytes of it are there.
    StreamRest = 0x0704,
    /// There are fewer bytes than the twelve before the payload.
    FrameShort = 0x0801,
    /// The bytes don't begin with 0x42 0x51.
    FrameBadMagic = 0x0802,
    /// The version is none of 1 to 3.
    FrameBadVersion = 0x0803,
    /// The payload has more bytes than a frame can have.
    FrameTooLong = 0x0804,
    /// There are fewer or more bytes than the twelve and those of the payload.
    FrameBadSize = 0x0805,
    /// No kind of request has this number.
    FrameBadKind = 0x0806,
    /// The number is 0xffffffff, which no request has.
    FrameBadNumber = 0x0807,
    /// The payload doesn't have the bytes that a request of its kind has.
    FrameBadPayload = 0x0808,
    /// The payload's load option isn't one. Only replies have this number.
    FrameOption = 0x0809,
    /// The file has no bytes.
    ImageEmpty = 0x0901,
    /// The file ends in its DOS header.
    ImageShortDosHeader = 0x0902,
    /// The file doesn't begin with MZ.
    ImageDosSignature = 0x0903,
    /// There are no 264 bytes from e_lfanew on, as many as headers with 16 data directories have.
    ImagePePlace = 0x0904,
    /// There is no PE signature where e_lfanew says.
    ImagePeSignature = 0x0905,
    /// Magic is neither that of PE32 nor that of PE32+.
    ImageMagic = 0x0906,
    /// The image is no EFI application.
    ImageSubsystem = 0x0907,
    /// There are more data directories than the format has.
    ImageDirectoryCount = 0x0908,
    /// The optional header isn't as long as one with so many data directories.
    ImageOptionalHeaderSize = 0x0909,
    /// The image has no room for its section table and one header more.
    ImageImageSize = 0x090a,
    /// The headers have no room for the section table.
    ImageHeadersSize = 0x090b,
    /// The headers don't end in the image.
    ImageHeadersBeyondImage = 0x090c,
    /// The file ends in the headers.
    ImageHeadersBeyondFile = 0x090d,
    /// The file ends before the certificate table does.
    ImageCertificatesBeyondFile = 0x090e,
    /// The machine isn't one that firmware knows.
    ImageMachine = 0x090f,
    /// A section lies in the headers, in the file or in memory.
    ImageSectionInHeaders = 0x0910,
    /// The file ends before a section does.
    ImageSectionBeyondFile = 0x0911,
    /// The debug directory is at an offset of more than four bytes.
    ImageDebugPlace = 0x0912,
    /// The file ends in an entry of the debug directory.
    ImageDebugBeyondFile = 0x0913,
    /// CodeView data are in no section: firmware loads them after the sections.
    ImageUnmappedCodeView = 0x0914,
    /// The image is one for ARM64.
    ImageArm64 = 0x0915,
    /// The image takes more memory than is taken for granted, 512 MiB.
    ImageMemory = 0x0916,
    /// The relocations are stripped, and the image's address is in the first page of memory.
    ImageFixedBase = 0x0917,
    /// The relocations are stripped: the memory at the image's address has to be free.
    ImageRelocationsStripped = 0x0918,
    /// Sections are aligned to nothing.
    ImageSectionAlignment = 0x0919,
    /// A section isn't in the image.
    ImageSectionBeyondImage = 0x091a,
    /// A section is written after the image's memory.
    ImageSectionBeyondMemory = 0x091b,
    /// A section without bytes in the file is written over the section table.
    ImageSectionOverTable = 0x091c,
    /// The directory of relocations is the first after those that there are, and isn't in the headers.
    ImageRelocationsNotLoaded = 0x091d,
    /// The relocations end after the last address of four bytes.
    ImageRelocationsOverflow = 0x091e,
    /// The relocations aren't in the image.
    ImageRelocationsBeyondImage = 0x091f,
    /// The image is one for IA32, which is loaded and not started.
    ImageIa32 = 0x0920,
    /// The image is EFI byte code, which needs an interpreter.
    ImageByteCode = 0x0921,
    /// The image's entry point isn't in it.
    ImageEntryPoint = 0x0922,
    /// Headers and sections have more bytes than the file. This and the next one are of digests alone.
    ImageOverlap = 0x0923,
    /// The certificate table has more bytes than are left of the file after the headers and sections.
    ImageCertificatesOverlap = 0x0924,
    /// The bytes end in the 28 before the list's header.
    ListsCutHeader = 0x0a01,
    /// The list has fewer bytes than its headers, or more than there are.
    ListsBadListSize = 0x0a02,
    /// A signature has fewer than 16 bytes, or the signatures aren't whole.
    ListsBadSignatureSize = 0x0a03,
    /// The debug entry of CodeView data isn't in the image.
    ImageCodeViewEntryBeyondImage = 0x0b01,
    /// The debug entry of CodeView data isn't in one section, or the headers, once they are in memory.
    ImageCodeViewEntryNotLoaded = 0x0b02,
    /// CodeView data aren't in the image.
    ImageCodeViewBeyondImage = 0x0b03,
    /// CodeView data aren't in one section, or the headers, once they are in memory.
    ImageCodeViewNotLoaded = 0x0b04,
    /// CodeView data have fewer bytes than data with their signature.
    ImageCodeViewSize = 0x0b05,
    /// What the loader reads of the resources isn't in one section, or the headers.
    ImageResourcesNotLoaded = 0x0b06,
    /// A directory, a name or the data of a resource begin after the resources.
    ImageResourceBeyondResources = 0x0b07,
    /// The entries of a directory of resources end after the resources.
    ImageResourceDirectorySize = 0x0b08,
    /// A block of relocations isn't in one section, or the headers.
    ImageRelocationBlockNotLoaded = 0x0b09,
    /// A block of relocations has no bytes, or more than are left of the relocations.
    ImageRelocationBlockSize = 0x0b0a,
    /// A block of relocations is of a page that isn't in the image.
    ImageRelocationBlockAddress = 0x0b0b,
    /// A relocation is of an address that isn't in the image.
    ImageRelocationBeyondImage = 0x0b0c,
    /// A relocation is of a type that firmware doesn't know.
    ImageRelocationUnknownType = 0x0b0d,
    /// The file of a journal begins neither with `BKJ1` nor with `BKJ2`.
    JournalBadMagic = 0x0c01,
    /// The name of the machine is to have no byte, or more than 4,096.
    JournalBadMachine = 0x0c02,
    /// The file ends in the field.
    JournalTruncated = 0x0c03,
    /// The value is to have more than 1,048,576 bytes.
    JournalValueTooLong = 0x0c04,
    /// The byte is neither 1, for changes that are being made, nor 2, for changes that are taken back.
    JournalBadCourse = 0x0c05,
    /// The identity isn't one to 64 characters from 0x21 to 0x7E.
    JournalBadIdentity = 0x0c06,
    /// The name isn't that of a variable of the boot manager.
    JournalBadName = 0x0c07,
    /// The journal is another machine's.
    JournalOfAnother = 0x0c08,
    /// With attributes, what a change of a journal that has none has is too long.
    JournalTooLong = 0x0c09,
    /// The name of the machine has no byte, or more than 4,096.
    MachineBadName = 0x0d01,
    /// The identity of the start isn't one to 64 characters from 0x21 to 0x7E.
    MachineBadStart = 0x0d02,
    /// A variable of the boot manager has no byte after its attributes.
    MachineNoData = 0x0d03,
    /// With its attributes, what a variable would have after the run is too long.
    MachineTooLong = 0x0d04,
    /// An entry is stored under the number that the new one is to have. The place of this fault, and of those of entries
    /// below, is the number of the entry.
    UneditedTaken = 0x0e01,
    /// An entry is stored under each number.
    UneditedNoFree = 0x0e02,
    /// The number is in the list twice.
    UneditedTwice = 0x0e03,
    /// There is no entry of the number.
    UneditedMissing = 0x0e04,
    /// There is no entry of the number, which was to be in the order.
    UneditedStale = 0x0e05,
    /// The entry of the number is no load option.
    UneditedNoOption = 0x0e06,
    /// BootOrder would have more than 65,536 numbers.
    UneditedOrderTooLong = 0x0e07,
    /// The load option to be added has more than 1,048,576 bytes.
    UneditedOptionTooLong = 0x0e08,
    /// The kind is that of no edit. This and the two after it come of numbers that this crate doesn't hand over.
    UneditedBadKind = 0x0e09,
    /// The number is above 65,536.
    UneditedBadNumber = 0x0e0a,
    /// The position is none.
    UneditedBadPosition = 0x0e0b,
    /// The notes at the start of a journal's file end in the field at this place.
    NotesTruncated = 0x0f01,
    /// The notes are to have more than 128 digests: the place is that of their count.
    NotesTooMany = 0x0f02,
    /// The identity of notes hasn't 16 bytes.
    NotesBadIdentity = 0x0f03,
    /// The record of a change doesn't begin with the four bytes `BKH1`.
    RecordBadMagic = 0x1001,
    /// The record ends in the field that begins at this place.
    RecordTruncated = 0x1002,
    /// The record has fewer than the four fields before the words.
    RecordTooFewFields = 0x1003,
    /// The record's name of the machine has no byte, or more than 4,096.
    RecordBadMachine = 0x1004,
    /// The record's time doesn't have eight bytes.
    RecordBadTime = 0x1005,
    /// What was before the change is no set: the fault within is the set's.
    RecordBadBefore = 0x1006,
    /// What was after the change is no set: the fault within is the set's.
    RecordBadAfter = 0x1007,
    /// The word of this number, of which the first is 0, isn't UTF-8.
    RecordBadWord = 0x1008,
    /// No zero ends the last word, which begins at this place of the words.
    RecordOpenWord = 0x1009,
    /// A word, or a set of the boot manager's variables, has 2^32 bytes or more.
    RecordTooLong = 0x100a,
    /// The file doesn't begin with a firmware volume of variables.
    StoreNoVolume = 0x1101,
    /// The header of the volume is damaged, or the file ends in the volume.
    StoreBadHeader = 0x1102,
    /// No store of variables is in the volume.
    StoreNoStore = 0x1103,
    /// The store is of the older kind, whose records have no times.
    StoreUnauthenticated = 0x1104,
    /// The store isn't formatted or healthy, or ends after the volume.
    StoreBadStore = 0x1105,
    /// The record at this place ends after the store.
    StoreCutRecord = 0x1106,
    /// The store has no room for the records.
    StoreFull = 0x1107,
}

impl PartialEq for Fault {
    fn eq(&self, other: &Fault) -> bool {
        self.number() == other.number()
    }
}

impl Eq for Fault {}

impl Hash for Fault {
    fn hash<H: Hasher>(&self, state: &mut H) {
        self.number().hash(state);
    }
}

impl fmt::Display for Refusal {
    fn fmt(&self, formatter: &mut fmt::Formatter<'_>) -> fmt::Result {
        write_fault(formatter, self.fault, self.place)?;
        match self.within {
            Some((fault, place)) => {
                formatter.write_str(": ")?;
                write_fault(formatter, fault, place)
            }
            None => Ok(()),
        }
    }
}

fn write_fault(formatter: &mut fmt::Formatter<'_>, fault: Fault, place: Option<usize>) -> fmt::Result {
    match place {
        Some(place) => write!(formatter, "{fault} at {place}"),
        None => write!(formatter, "{fault}"),
    }
}

impl fmt::Display for Fault {
    /// Its word, as `PathNoEnd`: that of the library, which may know more of them.
    fn fmt(&self, formatter: &mut fmt::Formatter<'_>) -> fmt::Result {
        formatter.write_str(&crate::word(WordOf::Refusal, self.number()))
    }
}

impl fmt::Display for Error {
    fn fmt(&self, formatter: &mut fmt::Formatter<'_>) -> fmt::Result {
        match self {
            Error::Refused(refusal) => refusal.fmt(formatter),
            Error::BytesLeft { place, count } => write!(formatter, "bytes come after the path: {count} at {place}"),
            Error::Absent => formatter.write_str("there is no variable of this name"),
            Error::NoMemory => formatter.write_str("out of memory"),
            Error::Closed => formatter.write_str("the keeper is closed"),
            Error::Other(status) => write!(formatter, "the library answers {}", crate::word(WordOf::Status, *status)),
        }
    }
}

impl std::error::Error for Error {}

impl std::error::Error for Refusal {}

impl From<Refusal> for Error {
    fn from(refusal: Refusal) -> Error {
        Error::Refused(refusal)
    }
}
