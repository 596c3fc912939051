//! Nodes and paths to bytes.

use crate::node::{HardDrive, Ipv4, Node, Vendor};

/// Appends the bytes of a path.
pub fn write_path(path: &[Vec<Node>], out: &mut Vec<u8>) {
    for (index, nodes) in path.iter().enumerate() {
        for node in nodes {
            write_node(node, out);
        }
        let is_last = index + 1 == path.len();
        write_header(0x7f, if is_last { 0xff } else { 0x01 }, 0, out);
    }
}

fn write_header(kind: u8, sub: u8, body_len: usize, out: &mut Vec<u8>) {
    let [low, high] = (4 + body_len as u16).to_le_bytes();
    out.extend_from_slice(&[kind, sub, low, high]);
}

fn write_node(node: &Node, out: &mut Vec<u8>) {
    match node {
        Node::Pci { function, device } => {
            write_header(1, 1, 2, out);
            out.extend_from_slice(&[*function, *device]);
        }
        Node::Acpi { hid, uid } => {
            write_header(2, 1, 8, out);
            out.extend_from_slice(&hid.to_le_bytes());
            out.extend_from_slice(&uid.to_le_bytes());
        }
        Node::Usb { port, interface } => {
            write_header(3, 5, 2, out);
            out.extend_from_slice(&[*port, *interface]);
        }
        Node::Mac { address, if_kind } => {
            write_header(3, 11, 33, out);
            out.extend_from_slice(address);
            out.push(*if_kind);
        }
        Node::Ipv4(ipv4) => write_ipv4(ipv4, out),
        Node::Sata {
            hba,
            multiplier,
            lun,
        } => {
            write_header(3, 18, 6, out);
            out.extend_from_slice(&hba.to_le_bytes());
            out.extend_from_slice(&multiplier.to_le_bytes());
            out.extend_from_slice(&lun.to_le_bytes());
        }
        Node::Vlan { id } => {
            write_header(3, 20, 2, out);
            out.extend_from_slice(&id.to_le_bytes());
        }
        Node::Nvme { namespace, eui } => {
            write_header(3, 23, 12, out);
            out.extend_from_slice(&namespace.to_le_bytes());
            out.extend_from_slice(eui);
        }
        Node::Uri(bytes) => {
            write_header(3, 24, bytes.len(), out);
            out.extend_from_slice(bytes);
        }
        Node::VendorHw(vendor) => write_vendor(1, 4, vendor, out),
        Node::VendorMsg(vendor) => write_vendor(3, 10, vendor, out),
        Node::VendorMedia(vendor) => write_vendor(4, 3, vendor, out),
        Node::HardDrive(drive) => write_hard_drive(drive, out),
        Node::Cdrom { entry, start, size } => {
            write_header(4, 2, 20, out);
            out.extend_from_slice(&entry.to_le_bytes());
            out.extend_from_slice(&start.to_le_bytes());
            out.extend_from_slice(&size.to_le_bytes());
        }
        Node::FilePath(units) => {
            write_header(4, 4, 2 * units.len() + 2, out);
            out.extend(units.iter().flat_map(|unit| unit.to_le_bytes()));
            out.extend_from_slice(&[0, 0]);
        }
        Node::Other { kind, sub, body } => {
            write_header(*kind, *sub, body.len(), out);
            out.extend_from_slice(body);
        }
    }
}

fn write_vendor(kind: u8, sub: u8, vendor: &Vendor, out: &mut Vec<u8>) {
    write_header(kind, sub, 16 + vendor.body.len(), out);
    out.extend_from_slice(&vendor.guid);
    out.extend_from_slice(&vendor.body);
}

fn write_ipv4(ipv4: &Ipv4, out: &mut Vec<u8>) {
    write_header(3, 12, 23, out);
    out.extend_from_slice(&ipv4.local);
    out.extend_from_slice(&ipv4.remote);
    out.extend_from_slice(&ipv4.local_port.to_le_bytes());
    out.extend_from_slice(&ipv4.remote_port.to_le_bytes());
    out.extend_from_slice(&ipv4.protocol.to_le_bytes());
    out.push(ipv4.fixed);
    out.extend_from_slice(&ipv4.gateway);
    out.extend_from_slice(&ipv4.mask);
}

fn write_hard_drive(drive: &HardDrive, out: &mut Vec<u8>) {
    write_header(4, 1, 38, out);
    out.extend_from_slice(&drive.partition.to_le_bytes());
    out.extend_from_slice(&drive.start.to_le_bytes());
    out.extend_from_slice(&drive.size.to_le_bytes());
    out.extend_from_slice(&drive.signature);
    out.extend_from_slice(&[drive.format, drive.signature_kind]);
}
