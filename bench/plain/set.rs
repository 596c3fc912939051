//! Sets of variables, as values and as bytes.

use std::error::Error;
use std::fmt;
use std::rc::Rc;

const MAGIC: &[u8] = b"BVS1";

const NAME_MAX: usize = 64;

const DATA_MAX: usize = 1_048_576;

/// Names and data, in the order of the names. Copies share the data.
#[derive(Clone)]
pub struct Vars(Vec<(String, Rc<[u8]>)>);

/// Why bytes aren't a set, and the offset of the record with the fault.
#[derive(Debug)]
pub enum Fault {
    BadMagic(usize),
    Truncated(usize),
    BadName(usize),
    BadData(usize),
    NotRising(usize),
}

impl fmt::Display for Fault {
    fn fmt(&self, f: &mut fmt::Formatter<'_>) -> fmt::Result {
        match self {
            Fault::BadMagic(offset) => write!(f, "BadMagic {offset}"),
            Fault::Truncated(offset) => write!(f, "Truncated {offset}"),
            Fault::BadName(offset) => write!(f, "BadName {offset}"),
            Fault::BadData(offset) => write!(f, "BadData {offset}"),
            Fault::NotRising(offset) => write!(f, "NotRising {offset}"),
        }
    }
}

impl Error for Fault {}

impl Vars {
    pub fn len(&self) -> usize {
        self.0.len()
    }

    /// The names, in their order.
    pub fn names(&self) -> impl Iterator<Item = &str> {
        self.0.iter().map(|(name, _)| name.as_str())
    }

    /// The data of the variable of this name.
    pub fn get(&self, name: &str) -> Option<&[u8]> {
        Some(&self.0[self.place(name).ok()?].1)
    }

    /// Sets the variable of this name to this data.
    pub fn put(&mut self, name: &str, data: Vec<u8>) {
        match self.place(name) {
            Ok(place) => self.0[place].1 = data.into(),
            Err(place) => self.0.insert(place, (name.to_owned(), data.into())),
        }
    }

    /// Takes out the variable of this name. Whether there was one.
    pub fn remove(&mut self, name: &str) -> bool {
        let found = self.place(name);
        found.is_ok_and(|place| {
            self.0.remove(place);
            true
        })
    }

    fn place(&self, name: &str) -> Result<usize, usize> {
        self.0
            .binary_search_by(|(other, _)| other.as_str().cmp(name))
    }
}

/// The variables whose set the bytes are, all of them.
pub fn read_set(bytes: &[u8]) -> Result<Vars, Fault> {
    let mut rest = bytes.strip_prefix(MAGIC).ok_or(Fault::BadMagic(0))?;
    let mut variables: Vec<(String, Rc<[u8]>)> = Vec::new();
    while !rest.is_empty() {
        let offset = bytes.len() - rest.len();
        let (name, behind) = split_name(rest, offset)?;
        if variables
            .last()
            .is_some_and(|(last, _)| last.as_str() >= name)
        {
            return Err(Fault::NotRising(offset));
        }
        let (data, behind) = split_data(behind, offset)?;
        variables.push((name.to_owned(), data.into()));
        rest = behind;
    }
    Ok(Vars(variables))
}

/// The name at the start of a record, and the bytes after it.
fn split_name(record: &[u8], offset: usize) -> Result<(&str, &[u8]), Fault> {
    let (len, behind) = record.split_first().ok_or(Fault::Truncated(offset))?;
    let len = usize::from(*len);
    if len == 0 || len > NAME_MAX {
        return Err(Fault::BadName(offset));
    }
    let (name, behind) = behind
        .split_at_checked(len)
        .ok_or(Fault::Truncated(offset))?;
    match str::from_utf8(name) {
        Ok(text) if name.iter().all(u8::is_ascii_graphic) => Ok((text, behind)),
        _ => Err(Fault::BadName(offset)),
    }
}

/// The data after a name, and the bytes after them.
fn split_data(bytes: &[u8], offset: usize) -> Result<(&[u8], &[u8]), Fault> {
    let (len, behind) = bytes.split_first_chunk().ok_or(Fault::Truncated(offset))?;
    let len = u32::from_le_bytes(*len) as usize;
    if len == 0 || len > DATA_MAX {
        return Err(Fault::BadData(offset));
    }
    behind.split_at_checked(len).ok_or(Fault::Truncated(offset))
}

/// The bytes of a set.
pub fn write_set(vars: &Vars) -> Vec<u8> {
    let records = vars
        .0
        .iter()
        .map(|(name, data)| name.len() + data.len() + 5);
    let mut out = Vec::with_capacity(MAGIC.len() + records.sum::<usize>());
    out.extend_from_slice(MAGIC);
    for (name, data) in &vars.0 {
        out.push(name.len() as u8);
        out.extend_from_slice(name.as_bytes());
        out.extend_from_slice(&(data.len() as u32).to_le_bytes());
        out.extend_from_slice(data);
    }
    out
}
