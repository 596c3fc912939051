//! Bytes to nodes and paths.

use crate::node::{HardDrive, Ipv4, Node, Path, Vendor};
use std::error::Error;
use std::fmt;

const HEADER_LEN: usize = 4;

/// Why bytes don't begin with a path, and the offset of the node with the fault.
#[derive(Debug)]
pub enum Fault {
    NoEnd(usize),
    ShortHeader(usize),
    BadLength(usize),
    PastEnd(usize),
    BadEnd(usize),
}

impl fmt::Display for Fault {
    fn fmt(&self, f: &mut fmt::Formatter<'_>) -> fmt::Result {
        match self {
            Fault::NoEnd(offset) => write!(f, "NoEnd {offset}"),
            Fault::ShortHeader(offset) => write!(f, "ShortHeader {offset}"),
            Fault::BadLength(offset) => write!(f, "BadLength {offset}"),
            Fault::PastEnd(offset) => write!(f, "PastEnd {offset}"),
            Fault::BadEnd(offset) => write!(f, "BadEnd {offset}"),
        }
    }
}

impl Error for Fault {}

/// A node where it is in the bytes.
pub struct NodeView<'a> {
    pub kind: u8,
    pub sub: u8,
    pub body: &'a [u8],
}

/// The nodes of a path whose bytes are known to be good, without the node that ends it.
pub struct Nodes<'a> {
    bytes: &'a [u8],
}

impl<'a> Iterator for Nodes<'a> {
    type Item = NodeView<'a>;

    fn next(&mut self) -> Option<NodeView<'a>> {
        let (kind, sub, body) = split_node(self.bytes, 0).ok()?;
        self.bytes = &self.bytes[HEADER_LEN + body.len()..];
        Some(NodeView { kind, sub, body })
    }
}

/// How many bytes the path at the start of the bytes takes.
pub fn check_path(bytes: &[u8]) -> Result<usize, Fault> {
    let mut offset = 0;
    loop {
        let (kind, sub, body) = split_node(&bytes[offset..], offset)?;
        let end = offset + HEADER_LEN + body.len();
        match (kind, sub, body.len()) {
            (0x7f, 0xff, 0) => return Ok(end),
            (0x7f, 0x01, 0) => {}
            (0x7f, _, _) => return Err(Fault::BadEnd(offset)),
            _ => {}
        }
        offset = end;
    }
}

/// The nodes of the path at the start of the bytes.
pub fn nodes(bytes: &[u8]) -> Result<Nodes<'_>, Fault> {
    let len = check_path(bytes)?;
    Ok(Nodes {
        bytes: &bytes[..len - HEADER_LEN],
    })
}

/// The path at the start of the bytes, and how many bytes it takes.
pub fn read_path(bytes: &[u8]) -> Result<(Path, usize), Fault> {
    let mut path = Vec::new();
    let mut nodes = Vec::new();
    let mut offset = 0;
    loop {
        let (kind, sub, body) = split_node(&bytes[offset..], offset)?;
        offset += HEADER_LEN + body.len();
        match (kind, sub, body.len()) {
            (0x7f, 0xff, 0) => {
                path.push(nodes);
                return Ok((path, offset));
            }
            (0x7f, 0x01, 0) => {
                path.push(nodes);
                nodes = Vec::new();
            }
            (0x7f, _, _) => return Err(Fault::BadEnd(offset - HEADER_LEN - body.len())),
            _ => nodes.push(node(kind, sub, body)),
        }
    }
}

/// The type, the sub-type and the data of the node at the start of the bytes.
fn split_node(bytes: &[u8], offset: usize) -> Result<(u8, u8, &[u8]), Fault> {
    let (kind, sub, len) = match *bytes {
        [] => return Err(Fault::NoEnd(offset)),
        [kind, sub, low, high, ..] => (kind, sub, usize::from(u16::from_le_bytes([low, high]))),
        _ => return Err(Fault::ShortHeader(offset)),
    };
    if len < HEADER_LEN {
        return Err(Fault::BadLength(offset));
    }
    let body = bytes.get(HEADER_LEN..len).ok_or(Fault::PastEnd(offset))?;
    Ok((kind, sub, body))
}

pub fn node(kind: u8, sub: u8, body: &[u8]) -> Node {
    match (kind, sub, body.len()) {
        (1, 1, 2) => Node::Pci {
            function: body[0],
            device: body[1],
        },
        (1, 4, 16..) => Node::VendorHw(vendor(body)),
        (2, 1, 8) => Node::Acpi {
            hid: u32_at(body, 0),
            uid: u32_at(body, 4),
        },
        (3, 5, 2) => Node::Usb {
            port: body[0],
            interface: body[1],
        },
        (3, 10, 16..) => Node::VendorMsg(vendor(body)),
        (3, 11, 33) => Node::Mac {
            address: bytes_at(body, 0),
            if_kind: body[32],
        },
        (3, 12, 23) => Node::Ipv4(ipv4(body)),
        (3, 18, 6) => Node::Sata {
            hba: u16_at(body, 0),
            multiplier: u16_at(body, 2),
            lun: u16_at(body, 4),
        },
        (3, 20, 2) => Node::Vlan {
            id: u16_at(body, 0),
        },
        (3, 23, 12) => Node::Nvme {
            namespace: u32_at(body, 0),
            eui: bytes_at(body, 4),
        },
        (3, 24, _) => Node::Uri(body.to_vec()),
        (4, 1, 38) => Node::HardDrive(hard_drive(body)),
        (4, 2, 20) => Node::Cdrom {
            entry: u32_at(body, 0),
            start: u64_at(body, 4),
            size: u64_at(body, 12),
        },
        (4, 3, 16..) => Node::VendorMedia(vendor(body)),
        (4, 4, _) if is_text(body) => Node::FilePath(units(&body[..body.len() - 2]).collect()),
        _ => Node::Other {
            kind,
            sub,
            body: body.to_vec(),
        },
    }
}

fn vendor(body: &[u8]) -> Vendor {
    Vendor {
        guid: bytes_at(body, 0),
        body: body[16..].to_vec(),
    }
}

fn ipv4(body: &[u8]) -> Ipv4 {
    Ipv4 {
        local: bytes_at(body, 0),
        remote: bytes_at(body, 4),
        local_port: u16_at(body, 8),
        remote_port: u16_at(body, 10),
        protocol: u16_at(body, 12),
        fixed: body[14],
        gateway: bytes_at(body, 15),
        mask: bytes_at(body, 19),
    }
}

fn hard_drive(body: &[u8]) -> HardDrive {
    HardDrive {
        partition: u32_at(body, 0),
        start: u64_at(body, 4),
        size: u64_at(body, 12),
        signature: bytes_at(body, 20),
        format: body[36],
        signature_kind: body[37],
    }
}

/// Whether the bytes are 16-bit units of which the last one is zero, and no other.
fn is_text(body: &[u8]) -> bool {
    let first_zero = units(body).position(|unit| unit == 0);
    first_zero.is_some_and(|index| 2 * index + 2 == body.len())
}

fn units(body: &[u8]) -> impl Iterator<Item = u16> + '_ {
    body.chunks_exact(2)
        .map(|pair| u16::from_le_bytes([pair[0], pair[1]]))
}

fn bytes_at<const N: usize>(body: &[u8], at: usize) -> [u8; N] {
    let mut bytes = [0; N];
    bytes.copy_from_slice(&body[at..at + N]);
    bytes
}

fn u16_at(body: &[u8], at: usize) -> u16 {
    u16::from_le_bytes(bytes_at(body, at))
}

fn u32_at(body: &[u8], at: usize) -> u32 {
    u32::from_le_bytes(bytes_at(body, at))
}

fn u64_at(body: &[u8], at: usize) -> u64 {
    u64::from_le_bytes(bytes_at(body, at))
}
