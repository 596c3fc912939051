//! Load options, as values and as bytes.

use crate::node::Path;
use crate::reader::{self, check_path, read_path};
use crate::writer::write_path;
use std::error::Error;
use std::fmt;

pub struct LoadOption {
    pub attributes: u32,
    /// The units of the description, without the zero that ends it.
    pub description: Vec<u16>,
    pub paths: Vec<Path>,
    pub optional: Vec<u8>,
}

/// Why bytes aren't a load option, or an option has no bytes.
#[derive(Debug)]
pub enum Fault {
    Short,
    NoTerminator,
    ListPastEnd,
    EmptyList,
    Path(usize, reader::Fault),
    ListTooLong,
}

impl fmt::Display for Fault {
    fn fmt(&self, f: &mut fmt::Formatter<'_>) -> fmt::Result {
        match self {
            Fault::Short => write!(f, "Short"),
            Fault::NoTerminator => write!(f, "NoTerminator"),
            Fault::ListPastEnd => write!(f, "ListPastEnd"),
            Fault::EmptyList => write!(f, "EmptyList"),
            Fault::Path(offset, fault) => write!(f, "Path {offset} {fault}"),
            Fault::ListTooLong => write!(f, "ListTooLong"),
        }
    }
}

impl Error for Fault {}

impl LoadOption {
    /// Whether the option is active and of the category of the normal boot.
    pub fn is_normal(&self) -> bool {
        self.attributes & 0x1f01 == 1
    }
}

/// The load option that the bytes are, all of them.
pub fn read_option(bytes: &[u8]) -> Result<LoadOption, Fault> {
    let [a, b, c, d, low, high, rest @ ..] = bytes else {
        return Err(Fault::Short);
    };
    let list_len = usize::from(u16::from_le_bytes([*low, *high]));
    let units = || {
        rest.chunks_exact(2)
            .map(|pair| u16::from_le_bytes([pair[0], pair[1]]))
    };
    let terminator = units()
        .position(|unit| unit == 0)
        .ok_or(Fault::NoTerminator)?;
    let start = 6 + 2 * terminator + 2;
    let (list, optional) = bytes[start..]
        .split_at_checked(list_len)
        .ok_or(Fault::ListPastEnd)?;
    if list.is_empty() {
        return Err(Fault::EmptyList);
    }
    Ok(LoadOption {
        attributes: u32::from_le_bytes([*a, *b, *c, *d]),
        description: units().take(terminator).collect(),
        paths: read_paths(list, start)?,
        optional: optional.to_vec(),
    })
}

/// A load option where it is in the bytes.
pub struct OptionView<'a> {
    pub attributes: u32,
    /// Without the zero unit that ends it.
    pub description: &'a [u8],
    pub list: &'a [u8],
    pub optional: &'a [u8],
}

/// The parts of the load option that the bytes are, all of them.
pub fn check_option(bytes: &[u8]) -> Result<OptionView<'_>, Fault> {
    let [a, b, c, d, low, high, rest @ ..] = bytes else {
        return Err(Fault::Short);
    };
    let list_len = usize::from(u16::from_le_bytes([*low, *high]));
    let terminator = rest
        .chunks_exact(2)
        .position(|pair| *pair == [0, 0])
        .ok_or(Fault::NoTerminator)?;
    let start = 6 + 2 * terminator + 2;
    let (list, optional) = bytes[start..]
        .split_at_checked(list_len)
        .ok_or(Fault::ListPastEnd)?;
    if list.is_empty() {
        return Err(Fault::EmptyList);
    }
    let mut offset = 0;
    while offset < list.len() {
        offset +=
            check_path(&list[offset..]).map_err(|fault| Fault::Path(start + offset, fault))?;
    }
    Ok(OptionView {
        attributes: u32::from_le_bytes([*a, *b, *c, *d]),
        description: &bytes[6..start - 2],
        list,
        optional,
    })
}

/// The paths that the list is, which begins at this offset of the option.
fn read_paths(list: &[u8], start: usize) -> Result<Vec<Path>, Fault> {
    let mut paths = Vec::new();
    let mut offset = 0;
    while offset < list.len() {
        let (path, len) =
            read_path(&list[offset..]).map_err(|fault| Fault::Path(start + offset, fault))?;
        paths.push(path);
        offset += len;
    }
    Ok(paths)
}

/// The bytes of a load option.
pub fn write_option(option: &LoadOption) -> Result<Vec<u8>, Fault> {
    let mut out = Vec::new();
    append_option(option, &mut out)?;
    Ok(out)
}

/// Appends the bytes of a load option.
pub fn append_option(option: &LoadOption, out: &mut Vec<u8>) -> Result<(), Fault> {
    let first = out.len();
    out.extend_from_slice(&option.attributes.to_le_bytes());
    out.extend_from_slice(&[0, 0]);
    out.extend(
        option
            .description
            .iter()
            .flat_map(|unit| unit.to_le_bytes()),
    );
    out.extend_from_slice(&[0, 0]);
    let start = out.len();
    for path in &option.paths {
        write_path(path, out);
    }
    let len = u16::try_from(out.len() - start).map_err(|_| Fault::ListTooLong)?;
    out[first + 4..first + 6].copy_from_slice(&len.to_le_bytes());
    out.extend_from_slice(&option.optional);
    Ok(())
}
