//! Text to paths.

use crate::node::{HardDrive, Ipv4, Node, Path, Vendor};
use crate::reader::node;
use std::error::Error;
use std::fmt;

/// Why a text doesn't stand for a path, and the place of the segment or the argument at fault.
#[derive(Debug)]
pub enum Fault {
    Segment(usize),
    Number(usize),
    Range(usize),
    End(usize),
}

impl fmt::Display for Fault {
    fn fmt(&self, f: &mut fmt::Formatter<'_>) -> fmt::Result {
        match self {
            Fault::Segment(place) => write!(f, "BadSegment {place}"),
            Fault::Number(place) => write!(f, "BadNumber {place}"),
            Fault::Range(place) => write!(f, "OutOfRange {place}"),
            Fault::End(place) => write!(f, "BadEnd {place}"),
        }
    }
}

impl Error for Fault {}

/// The path that a text stands for.
pub fn read_text(text: &str) -> Result<Path, Fault> {
    let text = text.as_bytes();
    let mut path = Vec::new();
    let mut nodes = Vec::new();
    let mut place = 0;
    loop {
        if !nodes.is_empty() || !matches!(text.get(place), None | Some(b',')) {
            let (node, len) = read_segment(&text[place..], place)?;
            nodes.push(node);
            place += len;
        }
        match text.get(place) {
            None => {
                path.push(nodes);
                return Ok(path);
            }
            Some(b'/') => {}
            Some(_) => path.push(std::mem::take(&mut nodes)),
        }
        place += 1;
    }
}

/// The node of the segment at the start of the rest, and how many bytes it takes.
fn read_segment(rest: &[u8], place: usize) -> Result<(Node, usize), Fault> {
    let (node, len) = if rest.first() == Some(&b'\\') {
        let len = rest
            .iter()
            .position(|byte| !is_plain(0x20, *byte) || *byte == b'/' || *byte == b',')
            .unwrap_or(rest.len());
        (file(&rest[..len], place)?, len)
    } else {
        let open = rest
            .iter()
            .position(|byte| !byte.is_ascii_alphanumeric())
            .filter(|open| rest[*open] == b'(')
            .ok_or(Fault::Segment(place))?;
        let inside = &rest[open + 1..];
        let close = inside
            .iter()
            .position(|byte| matches!(byte, b'(' | b')'))
            .filter(|close| inside[*close] == b')')
            .ok_or(Fault::Segment(place))?;
        let arguments = Arguments {
            text: &inside[..close],
            place: place + open + 1,
            segment: place,
        };
        (named(&rest[..open], arguments)?, open + close + 2)
    };
    match rest.get(len) {
        None | Some(b'/' | b',') => Ok((node, len)),
        _ => Err(Fault::Segment(place)),
    }
}

/// What is in the parentheses of a segment.
struct Arguments<'a> {
    text: &'a [u8],
    place: usize,
    segment: usize,
}

/// An argument and its place.
#[derive(Clone, Copy)]
struct Argument<'a> {
    text: &'a [u8],
    place: usize,
    segment: usize,
}

impl<'a> Arguments<'a> {
    /// The arguments, if there are `N`.
    fn parts<const N: usize>(&self) -> Result<[Argument<'a>; N], Fault> {
        let mut parts = [self.whole(); N];
        let mut place = self.place;
        let mut count = 0;
        for text in self.text.split(|byte| *byte == b',') {
            let part = parts.get_mut(count).ok_or(Fault::Segment(self.segment))?;
            part.text = text;
            part.place = place;
            place += text.len() + 1;
            count += 1;
        }
        if count == N {
            Ok(parts)
        } else {
            Err(Fault::Segment(self.segment))
        }
    }

    /// All of them as one.
    fn whole(&self) -> Argument<'a> {
        Argument {
            text: self.text,
            place: self.place,
            segment: self.segment,
        }
    }

    fn count(&self) -> usize {
        1 + self.text.iter().filter(|byte| **byte == b',').count()
    }
}

impl Argument<'_> {
    fn bad(&self) -> Fault {
        Fault::Segment(self.segment)
    }

    fn number(&self, most: u64) -> Result<u64, Fault> {
        let (digits, radix, longest) = match self.text {
            [b'0', b'x', digits @ ..] => (digits, 16, 16),
            digits => (digits, 10, 20),
        };
        if !is_numeral(digits, radix, longest) {
            return Err(Fault::Number(self.place));
        }
        let value = value_of(digits, radix).ok_or(Fault::Range(self.place))?;
        if value > most {
            return Err(Fault::Range(self.place));
        }
        Ok(value)
    }

    fn hex(&self) -> Result<Vec<u8>, Fault> {
        let (pairs, []) = self.text.as_chunks::<2>() else {
            return Err(self.bad());
        };
        let mut bytes = Vec::with_capacity(pairs.len());
        for pair in pairs {
            bytes.push(byte_of(*pair).ok_or(self.bad())?);
        }
        Ok(bytes)
    }

    fn array<const N: usize>(&self) -> Result<[u8; N], Fault> {
        self.hex()?.try_into().map_err(|_| self.bad())
    }

    fn guid(&self) -> Result<[u8; 16], Fault> {
        if self.text.len() != 36 {
            return Err(self.bad());
        }
        let mut guid = [0; 16];
        let order = [3, 2, 1, 0, 5, 4, 7, 6, 8, 9, 10, 11, 12, 13, 14, 15];
        let mut at = 0;
        for (index, place) in order.into_iter().enumerate() {
            if matches!(index, 4 | 6 | 8 | 10) {
                if self.text[at] != b'-' {
                    return Err(self.bad());
                }
                at += 1;
            }
            guid[place] = byte_of([self.text[at], self.text[at + 1]]).ok_or(self.bad())?;
            at += 2;
        }
        Ok(guid)
    }

    fn address(&self) -> Result<[u8; 4], Fault> {
        let mut address = [0; 4];
        let mut parts = self.text.split(|byte| *byte == b'.');
        for byte in &mut address {
            let part = parts.next().ok_or(self.bad())?;
            let value = Some(part)
                .filter(|part| is_numeral(part, 10, 3))
                .and_then(|part| value_of(part, 10))
                .ok_or(self.bad())?;
            *byte = u8::try_from(value).map_err(|_| self.bad())?;
        }
        if parts.next().is_some() {
            return Err(self.bad());
        }
        Ok(address)
    }

    fn eui(&self) -> Result<[u8; 8], Fault> {
        let mut eui = [0; 8];
        let mut parts = self.text.split(|byte| *byte == b'-');
        for byte in &mut eui {
            let pair = parts.next().and_then(|part| part.try_into().ok());
            *byte = pair.and_then(byte_of).ok_or(self.bad())?;
        }
        if parts.next().is_some() {
            return Err(self.bad());
        }
        Ok(eui)
    }
}

fn is_plain(low: u8, byte: u8) -> bool {
    (low..=0x7e).contains(&byte) && byte != b'(' && byte != b')'
}

fn digit_of(byte: u8) -> Option<u8> {
    char::from(byte).to_digit(16).map(|digit| digit as u8)
}

fn byte_of(pair: [u8; 2]) -> Option<u8> {
    Some(digit_of(pair[0])? << 4 | digit_of(pair[1])?)
}

fn is_numeral(digits: &[u8], radix: u8, longest: usize) -> bool {
    (1..=longest).contains(&digits.len())
        && digits
            .iter()
            .all(|digit| digit_of(*digit).is_some_and(|value| value < radix))
}

fn value_of(digits: &[u8], radix: u8) -> Option<u64> {
    digits.iter().try_fold(0u64, |value, digit| {
        value
            .checked_mul(u64::from(radix))?
            .checked_add(u64::from(digit_of(*digit)?))
    })
}

fn file(name: &[u8], place: usize) -> Result<Node, Fault> {
    if !name.iter().all(|byte| is_plain(0x20, *byte)) {
        return Err(Fault::Segment(place));
    }
    if name.len() > 32_764 {
        return Err(Fault::Range(place));
    }
    Ok(Node::FilePath(
        name.iter().map(|byte| u16::from(*byte)).collect(),
    ))
}

fn named(name: &[u8], arguments: Arguments<'_>) -> Result<Node, Fault> {
    match name {
        b"Pci" => {
            let [device, function] = arguments.parts()?;
            let device = device.number(0xff)? as u8;
            let function = function.number(0xff)? as u8;
            Ok(Node::Pci { function, device })
        }
        b"USB" => {
            let [port, interface] = arguments.parts()?;
            let port = port.number(0xff)? as u8;
            let interface = interface.number(0xff)? as u8;
            Ok(Node::Usb { port, interface })
        }
        b"Sata" => {
            let [hba, multiplier, lun] = arguments.parts()?;
            Ok(Node::Sata {
                hba: hba.number(0xffff)? as u16,
                multiplier: multiplier.number(0xffff)? as u16,
                lun: lun.number(0xffff)? as u16,
            })
        }
        b"Vlan" => {
            let [id] = arguments.parts()?;
            let id = id.number(0xffff)? as u16;
            Ok(Node::Vlan { id })
        }
        b"CDROM" => {
            let [entry, start, size] = arguments.parts()?;
            Ok(Node::Cdrom {
                entry: entry.number(0xffff_ffff)? as u32,
                start: start.number(u64::MAX)?,
                size: size.number(u64::MAX)?,
            })
        }
        b"NVMe" => {
            let [namespace, eui] = arguments.parts()?;
            Ok(Node::Nvme {
                namespace: namespace.number(0xffff_ffff)? as u32,
                eui: eui.eui()?,
            })
        }
        b"PciRoot" => root(0x0a03_41d0, &arguments),
        b"PcieRoot" => root(0x0a08_41d0, &arguments),
        b"Acpi" => acpi(&arguments),
        b"MAC" => mac(&arguments),
        b"IPv4" => ipv4(&arguments),
        b"Uri" => uri(&arguments),
        b"File" => file(arguments.text, arguments.place),
        b"HD" => hard_drive(&arguments),
        b"VenHw" => Ok(Node::VendorHw(vendor(&arguments)?)),
        b"VenMsg" => Ok(Node::VendorMsg(vendor(&arguments)?)),
        b"VenMedia" => Ok(Node::VendorMedia(vendor(&arguments)?)),
        b"Path" => generic(&arguments),
        _ => Err(Fault::Segment(arguments.segment)),
    }
}

fn root(hid: u32, arguments: &Arguments<'_>) -> Result<Node, Fault> {
    let [uid] = arguments.parts()?;
    let uid = uid.number(0xffff_ffff)? as u32;
    Ok(Node::Acpi { hid, uid })
}

fn acpi(arguments: &Arguments<'_>) -> Result<Node, Fault> {
    let [hid, uid] = arguments.parts()?;
    let hid = match hid.text {
        [b'P', b'N', b'P', a, b, c, d] => {
            let high = byte_of([*a, *b]).ok_or(hid.bad())?;
            let low = byte_of([*c, *d]).ok_or(hid.bad())?;
            u32::from(u16::from_be_bytes([high, low])) << 16 | 0x41d0
        }
        [b'P', b'N', b'P', ..] => return Err(hid.bad()),
        _ => hid.number(0xffff_ffff)? as u32,
    };
    let uid = uid.number(0xffff_ffff)? as u32;
    Ok(Node::Acpi { hid, uid })
}

fn mac(arguments: &Arguments<'_>) -> Result<Node, Fault> {
    let [digits, if_kind] = arguments.parts()?;
    let mut address = [0; 32];
    address[..6].copy_from_slice(&digits.array::<6>()?);
    let if_kind = if_kind.number(1)? as u8;
    Ok(Node::Mac { address, if_kind })
}

fn ipv4(arguments: &Arguments<'_>) -> Result<Node, Fault> {
    let [remote, protocol, origin, local, gateway, mask] = arguments.parts()?;
    Ok(Node::Ipv4(Ipv4 {
        remote: remote.address()?,
        protocol: protocol.number(0xffff)? as u16,
        fixed: match origin.text {
            b"DHCP" => 0,
            b"Static" => 1,
            _ => return Err(origin.bad()),
        },
        local: local.address()?,
        gateway: gateway.address()?,
        mask: mask.address()?,
        local_port: 0,
        remote_port: 0,
    }))
}

fn uri(arguments: &Arguments<'_>) -> Result<Node, Fault> {
    let bytes = arguments.text;
    if !bytes.iter().all(|byte| is_plain(0x21, *byte)) {
        return Err(Fault::Segment(arguments.segment));
    }
    if bytes.len() > 65_531 {
        return Err(Fault::Range(arguments.place));
    }
    Ok(Node::Uri(bytes.to_vec()))
}

fn hard_drive(arguments: &Arguments<'_>) -> Result<Node, Fault> {
    let [partition, format, signature, start, size] = arguments.parts()?;
    let partition = partition.number(0xffff_ffff)? as u32;
    let (signature, format) = match format.text {
        b"GPT" => (signature.guid()?, 2),
        b"MBR" => {
            let mut bytes = [0; 16];
            let number = signature.number(0xffff_ffff)? as u32;
            bytes[..4].copy_from_slice(&number.to_le_bytes());
            (bytes, 1)
        }
        _ => return Err(format.bad()),
    };
    Ok(Node::HardDrive(HardDrive {
        partition,
        start: start.number(u64::MAX)?,
        size: size.number(u64::MAX)?,
        signature,
        format,
        signature_kind: format,
    }))
}

fn vendor(arguments: &Arguments<'_>) -> Result<Vendor, Fault> {
    if arguments.count() == 1 {
        let guid = arguments.whole().guid()?;
        return Ok(Vendor {
            guid,
            body: Vec::new(),
        });
    }
    let [guid, data] = arguments.parts()?;
    let guid = guid.guid()?;
    let body = data.hex()?;
    if body.len() > 65_515 {
        return Err(Fault::Range(data.place));
    }
    Ok(Vendor { guid, body })
}

fn generic(arguments: &Arguments<'_>) -> Result<Node, Fault> {
    let (kind, sub, body) = if arguments.count() == 2 {
        let [kind, sub] = arguments.parts()?;
        (kind.number(0xff)?, sub.number(0xff)?, Vec::new())
    } else {
        let [kind, sub, data] = arguments.parts()?;
        let (kind, sub, body) = (kind.number(0xff)?, sub.number(0xff)?, data.hex()?);
        if body.len() > 65_531 {
            return Err(Fault::Range(data.place));
        }
        (kind, sub, body)
    };
    if kind == 0x7f {
        return Err(Fault::End(arguments.segment));
    }
    Ok(node(kind as u8, sub as u8, &body))
}
