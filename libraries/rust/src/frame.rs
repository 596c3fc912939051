//! Frames of numbered requests.

use crate::entry::EntryNumber;
use crate::error::{Error, Fault, Refusal};
use crate::library::{self, RawFrame};
use crate::numbers::*;
use crate::option::LoadOption;
use std::fmt;
use std::hash::{Hash, Hasher};
use std::io::{self, Read};

/// What a frame asks for.
#[derive(Clone, Copy, Debug, PartialEq, Eq, Hash)]
pub enum Request<'a> {
    /// To store the option under a number that is free, and to append that to BootOrder.
    Add(EntryNumber, &'a LoadOption),
    /// To store the option in the place of an entry.
    Replace(EntryNumber, &'a LoadOption),
    /// To take out an entry, its number from BootOrder, and a BootNext that names it.
    Remove(EntryNumber),
    /// To set BootOrder.
    Order(&'a [EntryNumber]),
    /// To set BootNext.
    Next(EntryNumber),
    /// To store the option under the lowest free number, and to append that to BootOrder.
    AddFree(&'a LoadOption),
    /// To store the option under the lowest free number, and to put that in front of BootOrder.
    AddFirst(&'a LoadOption),
    /// To put an entry in front of BootOrder.
    First(EntryNumber),
}

/// The frame of the request with this number.
///
/// # Errors
///
/// [`FrameTooLong`](Fault::FrameTooLong), or [`FrameBadNumber`](Fault::FrameBadNumber) of [`NO_NUMBER`];
/// [`Error::NoMemory`].
pub fn make(number: u32, request: Request<'_>) -> Result<Vec<u8>, Error> {
    let of_entry = |kind, entry: EntryNumber| library::frame_make(number, kind, entry.0, &[], &[]);
    let of_option = |kind, entry: EntryNumber, option: &LoadOption| {
        library::frame_make(number, kind, entry.0, option.as_ref(), &[])
    };
    match request {
        Request::Add(entry, option) => of_option(REQUEST_ADD, entry, option),
        Request::Replace(entry, option) => of_option(REQUEST_REPLACE, entry, option),
        Request::Remove(entry) => of_entry(REQUEST_REMOVE, entry),
        Request::Order(order) => {
            let numbers: Vec<u16> = order.iter().map(|entry| entry.0).collect();
            library::frame_make(number, REQUEST_ORDER, 0, &[], &numbers)
        }
        Request::Next(entry) => of_entry(REQUEST_NEXT, entry),
        Request::AddFree(option) => of_option(REQUEST_ADD_FREE, EntryNumber(0), option),
        Request::AddFirst(option) => of_option(REQUEST_ADD_FIRST, EntryNumber(0), option),
        Request::First(entry) => of_entry(REQUEST_FIRST, entry),
    }
}

/// A frame: its bytes, by which it is compared, and the number and the request that they have. Each goes both ways, to the
/// byte.
///
/// ```
/// use bootkeep::frame::{self, Frame, Request};
/// use bootkeep::EntryNumber;
///
/// # fn main() -> Result<(), bootkeep::Error> {
/// let frame = Frame::try_from(frame::make(7, Request::First(EntryNumber(3)))?)?;
/// assert_eq!((frame.number(), frame.request()), (7, Request::First(EntryNumber(3))));
/// assert_eq!(frame::make(8, frame.request())?.len(), frame.as_ref().len());
/// # Ok(())
/// # }
/// ```
#[derive(Clone, Debug)]
pub struct Frame {
    bytes: Vec<u8>,
    number: u32,
    asked: Asked,
}

/// A request that has its parts.
#[derive(Clone, Debug)]
enum Asked {
    Add(EntryNumber, LoadOption),
    Replace(EntryNumber, LoadOption),
    Remove(EntryNumber),
    Order(Vec<EntryNumber>),
    Next(EntryNumber),
    AddFree(LoadOption),
    AddFirst(LoadOption),
    First(EntryNumber),
}

impl Frame {
    /// The number of the request.
    pub fn number(&self) -> u32 {
        self.number
    }

    /// What it asks for.
    pub fn request(&self) -> Request<'_> {
        match &self.asked {
            Asked::Add(entry, option) => Request::Add(*entry, option),
            Asked::Replace(entry, option) => Request::Replace(*entry, option),
            Asked::Remove(entry) => Request::Remove(*entry),
            Asked::Order(order) => Request::Order(order),
            Asked::Next(entry) => Request::Next(*entry),
            Asked::AddFree(option) => Request::AddFree(option),
            Asked::AddFirst(option) => Request::AddFirst(option),
            Asked::First(entry) => Request::First(*entry),
        }
    }

    /// The bytes of the frame.
    pub fn into_bytes(self) -> Vec<u8> {
        self.bytes
    }
}

/// What a frame of these parts asks for.
fn asked(bytes: &[u8], parts: &RawFrame, order: Vec<u16>) -> Result<Asked, Error> {
    // The number of an entry has two bytes.
    let entry = EntryNumber(parts.entry as u16);
    let option = || LoadOption::try_from(&bytes[parts.option..parts.option + parts.option_len]);
    Ok(match parts.kind {
        REQUEST_ADD => Asked::Add(entry, option()?),
        REQUEST_REPLACE => Asked::Replace(entry, option()?),
        REQUEST_REMOVE => Asked::Remove(entry),
        REQUEST_ORDER => Asked::Order(order.into_iter().map(EntryNumber).collect()),
        REQUEST_NEXT => Asked::Next(entry),
        REQUEST_ADD_FREE => Asked::AddFree(option()?),
        REQUEST_ADD_FIRST => Asked::AddFirst(option()?),
        REQUEST_FIRST => Asked::First(entry),
        // One of a later library, which this crate doesn't know.
        _ => return Err(Error::Refused(fault_of(Fault::FrameBadKind, None))),
    })
}

impl TryFrom<Vec<u8>> for Frame {
    type Error = Error;

    /// The frame that the bytes are, all of them. A fault `Frame..`, or `Option..` of a load option that isn't one, with
    /// places in the option; [`Error::NoMemory`].
    fn try_from(bytes: Vec<u8>) -> Result<Frame, Error> {
        let (order, parts) = library::frame_parts(&bytes)?;
        let asked = asked(&bytes, &parts, order)?;
        Ok(Frame { bytes, number: parts.number, asked })
    }
}

impl TryFrom<&[u8]> for Frame {
    type Error = Error;

    /// As of a `Vec`.
    fn try_from(bytes: &[u8]) -> Result<Frame, Error> {
        Frame::try_from(bytes.to_vec())
    }
}

impl AsRef<[u8]> for Frame {
    fn as_ref(&self) -> &[u8] {
        &self.bytes
    }
}

impl PartialEq for Frame {
    fn eq(&self, other: &Frame) -> bool {
        self.bytes == other.bytes
    }
}

impl Eq for Frame {}

impl Hash for Frame {
    fn hash<H: Hasher>(&self, state: &mut H) {
        self.bytes.hash(state);
    }
}

/// A frame begins with a header: two bytes that are always these, the version, the kind, the number, and in four bytes how
/// many bytes the payload after it has.
const HEADER: usize = 12;
const MAGIC: [u8; 2] = [0x42, 0x51];

/// Why a stream gives no further frame.
#[derive(Debug)]
#[non_exhaustive]
pub enum StreamFault {
    /// It can't be read.
    Io(io::Error),
    /// Of a header after which nothing more can be cut [`StreamBadMagic`](Fault::StreamBadMagic),
    /// [`StreamBadVersion`](Fault::StreamBadVersion) or [`StreamTooLong`](Fault::StreamTooLong);
    /// [`StreamRest`](Fault::StreamRest) if the stream ends in a frame.
    Refused(Refusal),
}

impl fmt::Display for StreamFault {
    fn fmt(&self, formatter: &mut fmt::Formatter<'_>) -> fmt::Result {
        match self {
            StreamFault::Io(error) => error.fmt(formatter),
            StreamFault::Refused(refusal) => refusal.fmt(formatter),
        }
    }
}

impl std::error::Error for StreamFault {}

/// The frames of a stream, each as soon as it is read, up to the stream's end or its first fault. Whether each is a
/// request is told by the reply to it.
///
/// ```
/// use bootkeep::frame::{self, Request};
/// use bootkeep::EntryNumber;
///
/// # fn main() -> Result<(), Box<dyn std::error::Error>> {
/// let one = frame::make(0, Request::First(EntryNumber(3)))?;
/// let stream = one.repeat(2);
/// let found: Result<Vec<_>, _> = frame::read(&stream[..]).collect();
/// assert_eq!(found?, [one.clone(), one]);
/// # Ok(())
/// # }
/// ```
pub fn read<R: Read>(stream: R) -> Frames<R> {
    Frames { stream, is_ended: false }
}

/// What [`read`] gives.
#[derive(Debug)]
pub struct Frames<R> {
    stream: R,
    is_ended: bool,
}

impl<R: Read> Iterator for Frames<R> {
    type Item = Result<Vec<u8>, StreamFault>;

    fn next(&mut self) -> Option<Result<Vec<u8>, StreamFault>> {
        if self.is_ended {
            return None;
        }
        let next = self.cut().transpose();
        self.is_ended = !matches!(next, Some(Ok(_)));
        next
    }
}

impl<R: Read> Frames<R> {
    /// The next frame, unless the stream ends before it.
    fn cut(&mut self) -> Result<Option<Vec<u8>>, StreamFault> {
        let mut frame = Vec::new();
        self.fill(&mut frame, HEADER)?;
        if frame.is_empty() {
            return Ok(None);
        }
        let len = HEADER + payload_len(&frame).map_err(StreamFault::Refused)?;
        self.fill(&mut frame, len)?;
        if frame.len() < len {
            return Err(StreamFault::Refused(fault_of(Fault::StreamRest, Some(frame.len()))));
        }
        Ok(Some(frame))
    }

    /// Reads until the frame has so many bytes, or the stream ends.
    fn fill(&mut self, frame: &mut Vec<u8>, len: usize) -> Result<(), StreamFault> {
        let wanted = (len - frame.len()) as u64;
        self.stream.by_ref().take(wanted).read_to_end(frame).map_err(StreamFault::Io)?;
        Ok(())
    }
}

/// How many bytes the payload behind a header has.
fn payload_len(header: &[u8]) -> Result<usize, Refusal> {
    if header.len() < HEADER {
        return Err(fault_of(Fault::StreamRest, Some(header.len())));
    }
    if header[..2] != MAGIC {
        return Err(fault_of(Fault::StreamBadMagic, None));
    }
    if !(1..=3).contains(&header[2]) {
        return Err(fault_of(Fault::StreamBadVersion, None));
    }
    let len = header[8..HEADER].iter().rev().fold(0, |len, byte| len << 8 | usize::from(*byte));
    if len > FRAME_MAX - HEADER {
        return Err(fault_of(Fault::StreamTooLong, None));
    }
    Ok(len)
}

fn fault_of(fault: Fault, place: Option<usize>) -> Refusal {
    Refusal { fault, place, within: None }
}
