//! Paths to text.

use crate::node::{HardDrive, Ipv4, Node, Vendor};
use std::fmt::{self, Write};

const DIGITS: &[u8; 16] = b"0123456789abcdef";

/// The text of a path.
pub fn path_text(path: &[Vec<Node>]) -> Result<String, fmt::Error> {
    let mut text = String::new();
    for (index, nodes) in path.iter().enumerate() {
        if index > 0 {
            text.push(',');
        }
        for (index, node) in nodes.iter().enumerate() {
            if index > 0 {
                text.push('/');
            }
            print_node(node, &mut text)?;
        }
    }
    Ok(text)
}

fn print_node(node: &Node, text: &mut String) -> fmt::Result {
    match node {
        Node::Pci { function, device } => write!(text, "Pci({device:#x},{function:#x})"),
        Node::Acpi { hid, uid } => print_acpi(*hid, *uid, text),
        Node::Usb { port, interface } => write!(text, "USB({port:#x},{interface:#x})"),
        Node::Mac { address, if_kind } => print_mac(address, *if_kind, text),
        Node::Ipv4(ipv4) => print_ipv4(ipv4, text),
        Node::Sata {
            hba,
            multiplier,
            lun,
        } => write!(text, "Sata({hba:#x},{multiplier:#x},{lun:#x})"),
        Node::Vlan { id } => write!(text, "Vlan({id:#x})"),
        Node::Nvme { namespace, eui } => print_nvme(*namespace, eui, text),
        Node::Uri(bytes) => print_uri(bytes, text),
        Node::VendorHw(vendor) => print_vendor("VenHw", vendor, text),
        Node::VendorMsg(vendor) => print_vendor("VenMsg", vendor, text),
        Node::VendorMedia(vendor) => print_vendor("VenMedia", vendor, text),
        Node::HardDrive(drive) => print_hard_drive(drive, text),
        Node::Cdrom { entry, start, size } => {
            write!(text, "CDROM({entry:#x},{start:#x},{size:#x})")
        }
        Node::FilePath(units) => print_file(units, text),
        Node::Other { kind, sub, body } => print_generic(*kind, *sub, &[body], text),
    }
}

fn print_hex(bytes: &[u8], text: &mut String) {
    for byte in bytes {
        text.push(char::from(DIGITS[usize::from(byte >> 4)]));
        text.push(char::from(DIGITS[usize::from(byte & 0xf)]));
    }
}

fn print_generic(kind: u8, sub: u8, fields: &[&[u8]], text: &mut String) -> fmt::Result {
    write!(text, "Path({kind:#x},{sub:#x}")?;
    if fields.iter().any(|field| !field.is_empty()) {
        text.push(',');
    }
    for field in fields {
        print_hex(field, text);
    }
    text.push(')');
    Ok(())
}

fn print_guid(guid: &[u8; 16], text: &mut String) -> fmt::Result {
    let [a, b, c, d, e, f, g, h, ..] = *guid;
    let first = u32::from_le_bytes([a, b, c, d]);
    let second = u16::from_le_bytes([e, f]);
    let third = u16::from_le_bytes([g, h]);
    write!(text, "{first:08x}-{second:04x}-{third:04x}-")?;
    print_hex(&guid[8..10], text);
    text.push('-');
    print_hex(&guid[10..], text);
    Ok(())
}

fn print_vendor(name: &str, vendor: &Vendor, text: &mut String) -> fmt::Result {
    write!(text, "{name}(")?;
    print_guid(&vendor.guid, text)?;
    if !vendor.body.is_empty() {
        text.push(',');
        print_hex(&vendor.body, text);
    }
    text.push(')');
    Ok(())
}

fn print_acpi(hid: u32, uid: u32, text: &mut String) -> fmt::Result {
    match hid {
        0x0a03_41d0 => write!(text, "PciRoot({uid:#x})"),
        0x0a08_41d0 => write!(text, "PcieRoot({uid:#x})"),
        _ if hid & 0xffff == 0x41d0 => write!(text, "Acpi(PNP{:04X},{uid:#x})", hid >> 16),
        _ => write!(text, "Acpi({hid:#010x},{uid:#x})"),
    }
}

fn print_mac(address: &[u8; 32], if_kind: u8, text: &mut String) -> fmt::Result {
    let (front, behind) = address.split_at(6);
    if if_kind > 1 || behind.iter().any(|byte| *byte != 0) {
        return print_generic(3, 11, &[address, &[if_kind]], text);
    }
    text.push_str("MAC(");
    print_hex(front, text);
    write!(text, ",{if_kind:#x})")
}

fn print_address(address: &[u8; 4], text: &mut String) -> fmt::Result {
    let [a, b, c, d] = address;
    write!(text, "{a}.{b}.{c}.{d}")
}

fn print_ipv4(ipv4: &Ipv4, text: &mut String) -> fmt::Result {
    let origin = match (ipv4.local_port, ipv4.remote_port, ipv4.fixed) {
        (0, 0, 0) => "DHCP",
        (0, 0, 1) => "Static",
        _ => return print_ipv4_fields(ipv4, text),
    };
    text.push_str("IPv4(");
    print_address(&ipv4.remote, text)?;
    write!(text, ",{:#x},{origin},", ipv4.protocol)?;
    print_address(&ipv4.local, text)?;
    text.push(',');
    print_address(&ipv4.gateway, text)?;
    text.push(',');
    print_address(&ipv4.mask, text)?;
    text.push(')');
    Ok(())
}

fn print_ipv4_fields(ipv4: &Ipv4, text: &mut String) -> fmt::Result {
    let fields: [&[u8]; 8] = [
        &ipv4.local,
        &ipv4.remote,
        &ipv4.local_port.to_le_bytes(),
        &ipv4.remote_port.to_le_bytes(),
        &ipv4.protocol.to_le_bytes(),
        &[ipv4.fixed],
        &ipv4.gateway,
        &ipv4.mask,
    ];
    print_generic(3, 12, &fields, text)
}

fn print_nvme(namespace: u32, eui: &[u8; 8], text: &mut String) -> fmt::Result {
    write!(text, "NVMe({namespace:#x}")?;
    let mut mark = ',';
    for byte in eui {
        text.push(mark);
        print_hex(&[*byte], text);
        mark = '-';
    }
    text.push(')');
    Ok(())
}

fn is_plain(low: u16, code: u16) -> bool {
    (low..=0x7e).contains(&code) && code != 0x28 && code != 0x29
}

fn print_uri(bytes: &[u8], text: &mut String) -> fmt::Result {
    if !bytes.iter().all(|byte| is_plain(0x21, u16::from(*byte))) {
        return print_generic(3, 24, &[bytes], text);
    }
    text.push_str("Uri(");
    text.push_str(str::from_utf8(bytes).map_err(|_| fmt::Error)?);
    text.push(')');
    Ok(())
}

fn print_file(units: &[u16], text: &mut String) -> fmt::Result {
    if units.iter().all(|unit| is_plain(0x20, *unit)) {
        text.push_str("File(");
        text.extend(units.iter().map(|unit| char::from(*unit as u8)));
        text.push(')');
        return Ok(());
    }
    text.push_str("Path(0x4,0x4,");
    for unit in units {
        print_hex(&unit.to_le_bytes(), text);
    }
    text.push_str("0000)");
    Ok(())
}

fn print_hard_drive(drive: &HardDrive, text: &mut String) -> fmt::Result {
    let (number, padding) = drive.signature.split_at(4);
    match (drive.format, drive.signature_kind) {
        (2, 2) => {
            write!(text, "HD({},GPT,", drive.partition)?;
            print_guid(&drive.signature, text)?;
        }
        (1, 1) if padding.iter().all(|byte| *byte == 0) => {
            let number = u32::from_le_bytes([number[0], number[1], number[2], number[3]]);
            write!(text, "HD({},MBR,{number:#010x}", drive.partition)?;
        }
        _ => {
            let fields: [&[u8]; 5] = [
                &drive.partition.to_le_bytes(),
                &drive.start.to_le_bytes(),
                &drive.size.to_le_bytes(),
                &drive.signature,
                &[drive.format, drive.signature_kind],
            ];
            return print_generic(4, 1, &fields, text);
        }
    }
    write!(text, ",{:#x},{:#x})", drive.start, drive.size)
}
