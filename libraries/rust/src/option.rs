//! Load options (UEFI 2.10, 3.1.3).

use crate::error::{Error, Fault, Refusal};
use crate::library::{self, RawParts};
use crate::path::DevicePath;
use std::fmt;
use std::hash::{Hash, Hasher};

/// The option is active: the boot manager tries it by itself.
pub const ACTIVE: u32 = 0x0000_0001;
/// All drivers are connected again after the option's driver is loaded.
pub const FORCE_RECONNECT: u32 = 0x0000_0002;
/// A menu leaves the option out.
pub const HIDDEN: u32 = 0x0000_0008;
/// The bits of the category.
pub const CATEGORY: u32 = 0x0000_1f00;
/// The category of what the boot manager tries by itself.
pub const CATEGORY_BOOT: u32 = 0x0000_0000;
/// The category of an application that the user starts.
pub const CATEGORY_APP: u32 = 0x0000_0100;

/// The parts of a load option, where they are in its bytes.
#[derive(Clone, Copy, Debug, PartialEq, Eq)]
#[non_exhaustive]
pub struct Parts<'a> {
    /// The attributes, all 32 bits.
    pub attributes: u32,
    /// The units of the description, two bytes each, little-endian, without the zero unit that closes it.
    pub description: &'a [u8],
    /// The list of device paths, one after the other.
    pub list: &'a [u8],
    /// The optional data.
    pub optional: &'a [u8],
}

impl<'a> Parts<'a> {
    /// The units of the description, which [`make_units`] takes.
    pub fn units(&self) -> Vec<u16> {
        self.description.chunks_exact(2).map(|pair| u16::from_le_bytes([pair[0], pair[1]])).collect()
    }

    /// The device paths of the list, each as its bytes.
    ///
    /// # Errors
    ///
    /// A fault `Path..`, counted from the start of the path that has it, if the list is none of [`parts`].
    pub fn paths(&self) -> Result<Vec<&'a [u8]>, Error> {
        let (mut paths, mut rest) = (Vec::new(), self.list);
        while !rest.is_empty() {
            let (path, others) = rest.split_at(crate::path::check(rest)?);
            paths.push(path);
            rest = others;
        }
        Ok(paths)
    }
}

/// The parts of the load option that the bytes are, all of them (UEFI 2.10, 3.1.3).
///
/// # Errors
///
/// [`OptionShort`](crate::Fault::OptionShort), [`OptionNoTerminator`](crate::Fault::OptionNoTerminator),
/// [`OptionListPastEnd`](crate::Fault::OptionListPastEnd), [`OptionEmptyList`](crate::Fault::OptionEmptyList), or
/// [`OptionPath`](crate::Fault::OptionPath), at its place in the bytes, with the path's fault within.
pub fn parts(bytes: &[u8]) -> Result<Parts<'_>, Error> {
    Ok(parts_at(bytes, &library::option_parts(bytes)?))
}

/// The parts that are at these places of the bytes.
fn parts_at<'a>(bytes: &'a [u8], places: &RawParts) -> Parts<'a> {
    Parts {
        attributes: places.attributes,
        description: &bytes[places.description..places.description + places.description_len],
        list: &bytes[places.list..places.list + places.list_len],
        optional: &bytes[places.optional..places.optional + places.optional_len],
    }
}

/// The description of the load option that the bytes are, of which [`make`] makes the same one. All characters are as
/// they are, also those that a terminal acts on.
///
/// # Errors
///
/// Those of [`parts`]; [`OptionNotUtf16`](crate::Fault::OptionNotUtf16) if it is no text, as half of a pair of units
/// stands alone: [`Parts::units`] has these then; [`Error::NoMemory`].
pub fn description(bytes: &[u8]) -> Result<String, Error> {
    Ok(crate::utf8(library::option_description_utf8(bytes)?))
}

/// The description of the load option that the bytes are, as one line of ASCII, for a terminal or a log: units that don't
/// print are shown by their numbers.
///
/// # Errors
///
/// Those of [`parts`]; [`Error::NoMemory`].
pub fn description_line(bytes: &[u8]) -> Result<String, Error> {
    Ok(crate::ascii(library::option_description(bytes)?))
}

/// The load option of these parts (UEFI 2.10, 3.1.3). The list is the bytes of its device paths, one after the other.
///
/// # Errors
///
/// [`OptionPath`](crate::Fault::OptionPath), at its place in the list; otherwise
/// [`OptionZeroUnit`](crate::Fault::OptionZeroUnit), [`OptionEmptyList`](crate::Fault::OptionEmptyList) or
/// [`OptionListTooLong`](crate::Fault::OptionListTooLong), in this order; [`Error::NoMemory`].
pub fn make(attributes: u32, description: &str, list: &[u8], optional: &[u8]) -> Result<Vec<u8>, Error> {
    library::option_make(attributes, description, list, optional)
}

/// The same of the units of a description, whether or not they are a text, and without the zero unit that closes it: so
/// each option can be made again of its [`parts`], to the byte.
///
/// # Errors
///
/// Those of [`make`].
pub fn make_units(attributes: u32, units: &[u16], list: &[u8], optional: &[u8]) -> Result<Vec<u8>, Error> {
    library::option_make_units(attributes, units, list, optional)
}

/// A load option (UEFI 2.10, 3.1.3): its bytes, by which it is compared and hashed. Each goes both ways, to the byte.
///
/// As a text it is its description, as one line of ASCII, and its paths:
///
/// ```
/// use bootkeep::{option, DevicePath, LoadOption};
///
/// # fn main() -> Result<(), bootkeep::Error> {
/// let path: DevicePath = "PciRoot(0x0)/Pci(0x1,0x0)".parse()?;
/// let option = LoadOption::new(option::ACTIVE, "Mine", &[path], b"")?;
/// assert_eq!(option.to_string(), "Mine PciRoot(0x0)/Pci(0x1,0x0)");
/// assert_eq!(LoadOption::try_from(option.as_ref()), Ok(option));
/// # Ok(())
/// # }
/// ```
#[derive(Clone)]
pub struct LoadOption {
    bytes: Vec<u8>,
    places: RawParts,
}

impl LoadOption {
    /// The load option of these parts.
    ///
    /// # Errors
    ///
    /// [`OptionZeroUnit`](Fault::OptionZeroUnit), [`OptionEmptyList`](Fault::OptionEmptyList) or
    /// [`OptionListTooLong`](Fault::OptionListTooLong), in this order; [`Error::NoMemory`].
    pub fn new(attributes: u32, description: &str, paths: &[DevicePath], optional: &[u8]) -> Result<LoadOption, Error> {
        LoadOption::try_from(make(attributes, description, &list_of(paths), optional)?)
    }

    /// The same of the units of a description, whether or not they are a text, and without the zero unit that closes it.
    ///
    /// # Errors
    ///
    /// Those of [`new`](LoadOption::new).
    pub fn from_units(
        attributes: u32,
        units: &[u16],
        paths: &[DevicePath],
        optional: &[u8],
    ) -> Result<LoadOption, Error> {
        LoadOption::try_from(make_units(attributes, units, &list_of(paths), optional)?)
    }

    /// The parts, where they are in the bytes.
    pub fn parts(&self) -> Parts<'_> {
        parts_at(&self.bytes, &self.places)
    }

    /// The attributes, all 32 bits as they are stored.
    pub fn attributes(&self) -> u32 {
        self.places.attributes
    }

    /// The description, all of its characters as they are, also those that a terminal acts on; `None` if its units are no
    /// text, as half of a pair stands alone.
    ///
    /// # Errors
    ///
    /// [`Error::NoMemory`].
    pub fn description(&self) -> Result<Option<String>, Error> {
        match description(&self.bytes) {
            Ok(text) => Ok(Some(text)),
            Err(Error::Refused(Refusal { fault: Fault::OptionNotUtf16, .. })) => Ok(None),
            Err(error) => Err(error),
        }
    }

    /// The description as one line of ASCII, for a terminal or a log: units that don't print are shown by their numbers.
    ///
    /// # Errors
    ///
    /// [`Error::NoMemory`].
    pub fn description_line(&self) -> Result<String, Error> {
        description_line(&self.bytes)
    }

    /// The device paths, of which there is one at least.
    pub fn paths(&self) -> Vec<DevicePath> {
        // The list of an option is one of paths.
        DevicePath::list(self.parts().list).unwrap_or_default()
    }

    /// Whether the option has LOAD_OPTION_ACTIVE.
    pub fn is_active(&self) -> bool {
        self.attributes() & ACTIVE != 0
    }

    /// Whether the boot manager tries the option by itself: it is active, and of the category of the normal boot.
    pub fn is_normal(&self) -> bool {
        self.is_active() && self.attributes() & CATEGORY == CATEGORY_BOOT
    }

    /// The option with these attributes.
    ///
    /// # Errors
    ///
    /// [`Error::NoMemory`].
    pub fn with_attributes(&self, attributes: u32) -> Result<LoadOption, Error> {
        LoadOption::from_units(attributes, &self.parts().units(), &self.paths(), self.parts().optional)
    }

    /// The option with this description.
    ///
    /// # Errors
    ///
    /// [`OptionZeroUnit`](Fault::OptionZeroUnit); [`Error::NoMemory`].
    pub fn with_description(&self, description: &str) -> Result<LoadOption, Error> {
        LoadOption::new(self.attributes(), description, &self.paths(), self.parts().optional)
    }

    /// The option with these device paths.
    ///
    /// # Errors
    ///
    /// [`OptionEmptyList`](Fault::OptionEmptyList) or [`OptionListTooLong`](Fault::OptionListTooLong);
    /// [`Error::NoMemory`].
    pub fn with_paths(&self, paths: &[DevicePath]) -> Result<LoadOption, Error> {
        LoadOption::from_units(self.attributes(), &self.parts().units(), paths, self.parts().optional)
    }

    /// The bytes of the option.
    pub fn into_bytes(self) -> Vec<u8> {
        self.bytes
    }
}

fn list_of(paths: &[DevicePath]) -> Vec<u8> {
    paths.iter().flat_map(AsRef::<[u8]>::as_ref).copied().collect()
}

impl TryFrom<Vec<u8>> for LoadOption {
    type Error = Error;

    /// The load option that the bytes are, all of them: faults as of [`parts`].
    fn try_from(bytes: Vec<u8>) -> Result<LoadOption, Error> {
        let places = library::option_parts(&bytes)?;
        Ok(LoadOption { bytes, places })
    }
}

impl TryFrom<&[u8]> for LoadOption {
    type Error = Error;

    /// As of a `Vec`.
    fn try_from(bytes: &[u8]) -> Result<LoadOption, Error> {
        LoadOption::try_from(bytes.to_vec())
    }
}

impl AsRef<[u8]> for LoadOption {
    fn as_ref(&self) -> &[u8] {
        &self.bytes
    }
}

impl From<LoadOption> for Vec<u8> {
    fn from(option: LoadOption) -> Vec<u8> {
        option.bytes
    }
}

impl PartialEq for LoadOption {
    fn eq(&self, other: &LoadOption) -> bool {
        self.bytes == other.bytes
    }
}

impl Eq for LoadOption {}

impl Hash for LoadOption {
    fn hash<H: Hasher>(&self, state: &mut H) {
        self.bytes.hash(state);
    }
}

impl fmt::Display for LoadOption {
    /// Its description and its paths. It fails if memory is refused.
    fn fmt(&self, formatter: &mut fmt::Formatter<'_>) -> fmt::Result {
        formatter.write_str(&self.description_line().map_err(|_| fmt::Error)?)?;
        self.paths().iter().try_for_each(|path| write!(formatter, " {path}"))
    }
}

impl fmt::Debug for LoadOption {
    fn fmt(&self, formatter: &mut fmt::Formatter<'_>) -> fmt::Result {
        write!(formatter, "LoadOption({:#010x} {self})", self.attributes())
    }
}
