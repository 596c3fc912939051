//! The numbers of boot entries.

use std::fmt;
use std::str::FromStr;

/// The number of an entry, as 0x0005 of Boot0005. As a text it is its four digits, `0005`, which is read in either case.
///
/// ```
/// use bootkeep::EntryNumber;
///
/// # fn main() -> Result<(), bootkeep::BadEntryNumber> {
/// let number: EntryNumber = "00af".parse()?;
/// assert_eq!((number, number.to_string(), number.name()), (EntryNumber(0xAF), "00AF".into(), "Boot00AF".into()));
/// assert_eq!(EntryNumber::from_name("Boot00AF"), Ok(number));
/// # Ok(())
/// # }
/// ```
#[derive(Clone, Copy, Debug, PartialEq, Eq, PartialOrd, Ord, Hash)]
pub struct EntryNumber(pub u16);

/// A text is no number of an entry, or no name of one.
#[derive(Clone, Copy, Debug, PartialEq, Eq)]
#[non_exhaustive]
pub struct BadEntryNumber;

impl EntryNumber {
    /// The name of the entry's variable: `Boot` and four digits in upper case (UEFI 2.10, 3.3).
    pub fn name(self) -> String {
        format!("Boot{self}")
    }

    /// The number in the name of an entry's variable.
    ///
    /// # Errors
    ///
    /// [`BadEntryNumber`] of any other name, also of one with digits in lower case, which is another variable's.
    pub fn from_name(name: &str) -> Result<EntryNumber, BadEntryNumber> {
        let digits = name.strip_prefix("Boot").ok_or(BadEntryNumber)?;
        if digits.contains(|digit: char| digit.is_ascii_lowercase()) {
            return Err(BadEntryNumber);
        }
        digits.parse()
    }
}

impl FromStr for EntryNumber {
    type Err = BadEntryNumber;

    /// Reads four hexadecimal digits, and nothing else.
    fn from_str(text: &str) -> Result<EntryNumber, BadEntryNumber> {
        if text.len() != 4 || !text.bytes().all(|digit| digit.is_ascii_hexdigit()) {
            return Err(BadEntryNumber);
        }
        u16::from_str_radix(text, 16).map(EntryNumber).map_err(|_| BadEntryNumber)
    }
}

impl fmt::Display for EntryNumber {
    fn fmt(&self, formatter: &mut fmt::Formatter<'_>) -> fmt::Result {
        write!(formatter, "{:04X}", self.0)
    }
}

impl From<u16> for EntryNumber {
    fn from(number: u16) -> EntryNumber {
        EntryNumber(number)
    }
}

impl From<EntryNumber> for u16 {
    fn from(number: EntryNumber) -> u16 {
        number.0
    }
}

impl fmt::Display for BadEntryNumber {
    fn fmt(&self, formatter: &mut fmt::Formatter<'_>) -> fmt::Result {
        formatter.write_str("this isn't the number of an entry, as 0005, or its name, as Boot0005")
    }
}

impl std::error::Error for BadEntryNumber {}
