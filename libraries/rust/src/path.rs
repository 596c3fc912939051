//! Device paths (UEFI 2.10, chapter 10).

use crate::error::Error;
use crate::library;
use std::fmt;
use std::str::FromStr;

/// How many bytes the header of a node has.
const HEADER: usize = 4;
/// The most bytes of a node after its header.
const NODE_DATA_MAX: usize = 0xffff - HEADER;
/// The node that ends a path, and the type of those that end something.
const END: [u8; HEADER] = [END_KIND, 0xff, 4, 0];
const END_KIND: u8 = 0x7f;
/// The type and the subtype of the name of a file.
const FILE: (u8, u8) = (4, 4);

/// The text of the device path at the start of the bytes (UEFI 2.10, 10.3 and 10.6), in the one spelling that is
/// printed, and how many bytes it takes. What comes after its end is left.
///
/// # Errors
///
/// A fault `Path..`, at the node that has it; [`Error::NoMemory`].
pub fn text(bytes: &[u8]) -> Result<(String, usize), Error> {
    let (text, taken) = library::path_text(bytes)?;
    Ok((crate::ascii(text), taken))
}

/// The text for a person of the device path at the start of the bytes, and how many bytes it takes: each node of the
/// standard has its name and its fields (UEFI 2.10, 10.3). [`parse`] reads it.
///
/// # Errors
///
/// Those of [`text`].
pub fn names(bytes: &[u8]) -> Result<(String, usize), Error> {
    let (text, taken) = library::path_names(bytes)?;
    Ok((crate::utf8(text), taken))
}

/// How many bytes the device path at the start of the bytes takes (UEFI 2.10, 10.3).
///
/// # Errors
///
/// A fault `Path..`, at the node that has it.
pub fn check(bytes: &[u8]) -> Result<usize, Error> {
    library::path_check(bytes)
}

/// The bytes of the device path that the text stands for: that of [`text`] or [`names`], and other spellings besides.
///
/// # Errors
///
/// A fault `Text..`, at its place in the text, in bytes; [`Error::NoMemory`].
pub fn parse(text: &str) -> Result<Vec<u8>, Error> {
    library::path_parse(text)
}

/// The same for texts as [`text`] gives them, and other spellings of these: the names of most nodes are refused.
///
/// # Errors
///
/// Those of [`parse`].
pub fn parse_exact(text: &str) -> Result<Vec<u8>, Error> {
    library::path_parse_exact(text)
}

/// A node of a device path.
#[derive(Clone, Debug, PartialEq, Eq, Hash)]
pub struct Node {
    kind: u8,
    sub: u8,
    data: Vec<u8>,
}

/// What can't be a node.
#[derive(Clone, Copy, Debug, PartialEq, Eq)]
#[non_exhaustive]
pub enum NodeFault {
    /// A node has at most 65,531 bytes after its header, and these are so many.
    TooLong(usize),
    /// The name of a file has a zero character at this place, in bytes, which would end it.
    ZeroCharacter(usize),
}

impl Node {
    /// The node of this type and subtype (UEFI 2.10, 10.3), with these bytes after its header.
    ///
    /// # Errors
    ///
    /// [`NodeFault::TooLong`].
    pub fn new(kind: u8, sub: u8, data: Vec<u8>) -> Result<Node, NodeFault> {
        if data.len() > NODE_DATA_MAX {
            return Err(NodeFault::TooLong(data.len()));
        }
        Ok(Node { kind, sub, data })
    }

    /// The node of a file, by its name from the root, with backslashes: `\EFI\BOOT\BOOTX64.EFI`. Any name will do, also one
    /// with letters that stand for something else in a text of a path.
    ///
    /// # Errors
    ///
    /// [`NodeFault::ZeroCharacter`], and [`NodeFault::TooLong`].
    pub fn file(name: &str) -> Result<Node, NodeFault> {
        if let Some(place) = name.find('\0') {
            return Err(NodeFault::ZeroCharacter(place));
        }
        Node::new(FILE.0, FILE.1, name.encode_utf16().chain([0]).flat_map(u16::to_le_bytes).collect())
    }

    /// Its type, as 4 of the nodes of media.
    pub fn kind(&self) -> u8 {
        self.kind
    }

    /// Its subtype, as 4 of the names of files among these.
    pub fn sub(&self) -> u8 {
        self.sub
    }

    /// What comes after its header of four bytes.
    pub fn data(&self) -> &[u8] {
        &self.data
    }

    /// Whether it ends an instance of a path, of which another one follows.
    pub fn is_end(&self) -> bool {
        self.kind == END_KIND
    }

    fn append_to(&self, bytes: &mut Vec<u8>) {
        // No node is made with more.
        let len = (HEADER + self.data.len()) as u16;
        bytes.extend([self.kind, self.sub]);
        bytes.extend(len.to_le_bytes());
        bytes.extend(&self.data);
    }
}

impl fmt::Display for NodeFault {
    fn fmt(&self, formatter: &mut fmt::Formatter<'_>) -> fmt::Result {
        match self {
            NodeFault::TooLong(len) => write!(formatter, "a node has at most {NODE_DATA_MAX} bytes of data, not {len}"),
            NodeFault::ZeroCharacter(place) => write!(formatter, "the name has a zero character at {place}"),
        }
    }
}

impl std::error::Error for NodeFault {}

/// A device path (UEFI 2.10, chapter 10), with the node that ends it: its bytes, by which it is compared and hashed.
///
/// As a text it has the names and the fields of its nodes, for a person, and is read from that as the same path:
///
/// ```
/// use bootkeep::{DevicePath, Node};
///
/// # fn main() -> Result<(), Box<dyn std::error::Error>> {
/// let path: DevicePath = r"PciRoot(0x0)/Pci(0x1,0x0)/\EFI\a.efi".parse()?;
/// let other = path.replace_last(Node::file(r"\EFI\b.efi")?)?;
/// assert_eq!(other.to_string(), r"PciRoot(0x0)/Pci(0x1,0x0)/File(\EFI\b.efi)");
/// assert_eq!(DevicePath::try_from(other.as_ref()), Ok(other));
/// # Ok(())
/// # }
/// ```
#[derive(Clone, PartialEq, Eq, PartialOrd, Ord, Hash)]
pub struct DevicePath(Vec<u8>);

impl DevicePath {
    /// The path of these nodes, without the one that ends it.
    ///
    /// # Errors
    ///
    /// As of `try_from`, of a node of type 0x7F that ends no instance.
    pub fn from_nodes<'a>(nodes: impl IntoIterator<Item = &'a Node>) -> Result<DevicePath, Error> {
        let mut bytes = Vec::new();
        nodes.into_iter().for_each(|node| node.append_to(&mut bytes));
        bytes.extend(END);
        DevicePath::try_from(bytes)
    }

    /// The nodes, without the one that ends the path. Between two instances is the node that ends the first.
    pub fn nodes(&self) -> Vec<Node> {
        let (mut nodes, mut rest) = (Vec::new(), &self.0[..self.0.len() - HEADER]);
        while let [kind, sub, low, high, ..] = *rest {
            let (node, others) = rest.split_at(u16::from_le_bytes([low, high]).into());
            nodes.push(Node { kind, sub, data: node[HEADER..].to_vec() });
            rest = others;
        }
        nodes
    }

    /// The path with this node in the place of that which [`nodes`](DevicePath::nodes) has at `at`.
    ///
    /// # Errors
    ///
    /// [`Error::Absent`] if there is none; otherwise those of [`from_nodes`](DevicePath::from_nodes).
    pub fn replace(&self, at: usize, node: Node) -> Result<DevicePath, Error> {
        let mut nodes = self.nodes();
        *nodes.get_mut(at).ok_or(Error::Absent)? = node;
        DevicePath::from_nodes(&nodes)
    }

    /// The path with this node in the place of its last one, as that of the name of a file.
    ///
    /// # Errors
    ///
    /// [`Error::Absent`] if it has no node; otherwise those of [`from_nodes`](DevicePath::from_nodes).
    pub fn replace_last(&self, node: Node) -> Result<DevicePath, Error> {
        self.replace(self.nodes().len().wrapping_sub(1), node)
    }

    /// The text of [`text`], which is the same for good, and in which most nodes are digits.
    ///
    /// # Errors
    ///
    /// [`Error::NoMemory`].
    pub fn exact_text(&self) -> Result<String, Error> {
        Ok(text(&self.0)?.0)
    }

    /// The bytes of the path.
    pub fn into_bytes(self) -> Vec<u8> {
        self.0
    }

    /// The paths that the bytes of a list are, one after the other.
    ///
    /// # Errors
    ///
    /// A fault `Path..`, counted from the start of the path that has it.
    pub(crate) fn list(mut bytes: &[u8]) -> Result<Vec<DevicePath>, Error> {
        let mut paths = Vec::new();
        while !bytes.is_empty() {
            let (path, others) = bytes.split_at(check(bytes)?);
            paths.push(DevicePath(path.to_vec()));
            bytes = others;
        }
        Ok(paths)
    }
}

impl TryFrom<Vec<u8>> for DevicePath {
    type Error = Error;

    /// The path that the bytes are, all of them: a fault `Path..` at the node that has it, or [`Error::BytesLeft`].
    /// [`check`] tells how many bytes the path has at the start of others.
    fn try_from(bytes: Vec<u8>) -> Result<DevicePath, Error> {
        let place = check(&bytes)?;
        match bytes.len() - place {
            0 => Ok(DevicePath(bytes)),
            count => Err(Error::BytesLeft { place, count }),
        }
    }
}

impl TryFrom<&[u8]> for DevicePath {
    type Error = Error;

    /// As of a `Vec`.
    fn try_from(bytes: &[u8]) -> Result<DevicePath, Error> {
        DevicePath::try_from(bytes.to_vec())
    }
}

impl FromStr for DevicePath {
    type Err = Error;

    /// The path that the text stands for, as of [`parse`]: a fault `Text..` at its place in the text, in bytes.
    fn from_str(text: &str) -> Result<DevicePath, Error> {
        parse(text).map(DevicePath)
    }
}

impl AsRef<[u8]> for DevicePath {
    fn as_ref(&self) -> &[u8] {
        &self.0
    }
}

impl From<DevicePath> for Vec<u8> {
    fn from(path: DevicePath) -> Vec<u8> {
        path.0
    }
}

impl fmt::Display for DevicePath {
    /// The text of [`names`]. It fails if memory is refused.
    fn fmt(&self, formatter: &mut fmt::Formatter<'_>) -> fmt::Result {
        formatter.write_str(&names(&self.0).map_err(|_| fmt::Error)?.0)
    }
}

impl fmt::Debug for DevicePath {
    fn fmt(&self, formatter: &mut fmt::Formatter<'_>) -> fmt::Result {
        write!(formatter, "DevicePath({self})")
    }
}
