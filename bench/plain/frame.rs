//! Requests with their numbers, as values and as bytes.

use crate::option::{self, LoadOption, append_option, read_option};
use std::error::Error;
use std::fmt;

const PAYLOAD_MAX: usize = 131_072;

pub enum Request {
    Add(u16, LoadOption),
    Replace(u16, LoadOption),
    Remove(u16),
    Order(Vec<u16>),
    Next(u16),
    AddFirst(LoadOption),
    First(u16),
}

/// Why bytes aren't a frame, or a request has none.
#[derive(Debug)]
pub enum Fault {
    Short,
    BadMagic,
    BadVersion,
    TooLong,
    BadSize,
    BadKind,
    BadNumber,
    BadPayload,
    Option(option::Fault),
}

impl fmt::Display for Fault {
    fn fmt(&self, f: &mut fmt::Formatter<'_>) -> fmt::Result {
        match self {
            Fault::Option(fault) => write!(f, "Option {fault}"),
            fault => write!(f, "{fault:?}"),
        }
    }
}

impl Error for Fault {}

/// The request that the bytes are, all of them, and its number.
pub fn read_frame(bytes: &[u8]) -> Result<(u32, Request), Fault> {
    let Some((header, payload)) = bytes.split_first_chunk::<12>() else {
        return Err(Fault::Short);
    };
    let [m, n, version, kind, a, b, c, d, e, f, g, h] = *header;
    let number = u32::from_le_bytes([a, b, c, d]);
    let len = u32::from_le_bytes([e, f, g, h]) as usize;
    if [m, n] != [0x42, 0x51] {
        return Err(Fault::BadMagic);
    }
    if version != 1 && version != 3 {
        return Err(Fault::BadVersion);
    }
    if len > PAYLOAD_MAX {
        return Err(Fault::TooLong);
    }
    if payload.len() != len {
        return Err(Fault::BadSize);
    }
    if !matches!((version, kind), (1, 1..=5) | (3, 7 | 8)) {
        return Err(Fault::BadKind);
    }
    if number == u32::MAX {
        return Err(Fault::BadNumber);
    }
    Ok((number, read_payload(kind, payload)?))
}

fn read_payload(kind: u8, payload: &[u8]) -> Result<Request, Fault> {
    match (kind, payload) {
        (1, [low, high, rest @ ..]) => Ok(Request::Add(
            u16::from_le_bytes([*low, *high]),
            read_option(rest).map_err(Fault::Option)?,
        )),
        (2, [low, high, rest @ ..]) => Ok(Request::Replace(
            u16::from_le_bytes([*low, *high]),
            read_option(rest).map_err(Fault::Option)?,
        )),
        (3, [low, high]) => Ok(Request::Remove(u16::from_le_bytes([*low, *high]))),
        (5, [low, high]) => Ok(Request::Next(u16::from_le_bytes([*low, *high]))),
        (7, option) => Ok(Request::AddFirst(read_option(option).map_err(Fault::Option)?)),
        (8, [low, high]) => Ok(Request::First(u16::from_le_bytes([*low, *high]))),
        (4, numbers) if numbers.len() % 2 == 0 => Ok(Request::Order(
            numbers
                .chunks_exact(2)
                .map(|pair| u16::from_le_bytes([pair[0], pair[1]]))
                .collect(),
        )),
        _ => Err(Fault::BadPayload),
    }
}

/// The bytes of a request with its number.
pub fn write_frame(number: u32, request: &Request) -> Result<Vec<u8>, Fault> {
    let kind = kind_of(request);
    let mut out = vec![0x42, 0x51, if kind < 6 { 1 } else { 3 }, kind];
    out.extend_from_slice(&number.to_le_bytes());
    out.extend_from_slice(&[0; 4]);
    append_payload(request, &mut out)?;
    let len = out.len() - 12;
    if len > PAYLOAD_MAX {
        return Err(Fault::TooLong);
    }
    if number == u32::MAX {
        return Err(Fault::BadNumber);
    }
    out[8..12].copy_from_slice(&(len as u32).to_le_bytes());
    Ok(out)
}

fn kind_of(request: &Request) -> u8 {
    match request {
        Request::Add(..) => 1,
        Request::Replace(..) => 2,
        Request::Remove(_) => 3,
        Request::Order(_) => 4,
        Request::Next(_) => 5,
        Request::AddFirst(_) => 7,
        Request::First(_) => 8,
    }
}

fn append_payload(request: &Request, out: &mut Vec<u8>) -> Result<(), Fault> {
    match request {
        Request::Add(entry, option) | Request::Replace(entry, option) => {
            out.extend_from_slice(&entry.to_le_bytes());
            append_option(option, out).map_err(Fault::Option)?;
        }
        Request::AddFirst(option) => append_option(option, out).map_err(Fault::Option)?,
        Request::Remove(entry) | Request::Next(entry) | Request::First(entry) => {
            out.extend_from_slice(&entry.to_le_bytes())
        }
        Request::Order(numbers) => {
            out.extend(numbers.iter().flat_map(|number| number.to_le_bytes()))
        }
    }
    Ok(())
}
