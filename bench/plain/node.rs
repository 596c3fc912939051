//! The values: the same cases, fields and lists as the product's.

/// The nodes of each instance.
pub type Path = Vec<Vec<Node>>;

pub enum Node {
    Pci {
        function: u8,
        device: u8,
    },
    Acpi {
        hid: u32,
        uid: u32,
    },
    Usb {
        port: u8,
        interface: u8,
    },
    Mac {
        address: [u8; 32],
        if_kind: u8,
    },
    Ipv4(Ipv4),
    Sata {
        hba: u16,
        multiplier: u16,
        lun: u16,
    },
    Vlan {
        id: u16,
    },
    Nvme {
        namespace: u32,
        eui: [u8; 8],
    },
    Uri(Vec<u8>),
    VendorHw(Vendor),
    VendorMsg(Vendor),
    VendorMedia(Vendor),
    HardDrive(HardDrive),
    Cdrom {
        entry: u32,
        start: u64,
        size: u64,
    },
    /// The units of the name, without the zero that ends it.
    FilePath(Vec<u16>),
    Other {
        kind: u8,
        sub: u8,
        body: Vec<u8>,
    },
}

pub struct Vendor {
    pub guid: [u8; 16],
    pub body: Vec<u8>,
}

pub struct Ipv4 {
    pub local: [u8; 4],
    pub remote: [u8; 4],
    pub local_port: u16,
    pub remote_port: u16,
    pub protocol: u16,
    pub fixed: u8,
    pub gateway: [u8; 4],
    pub mask: [u8; 4],
}

pub struct HardDrive {
    pub partition: u32,
    pub start: u64,
    pub size: u64,
    pub signature: [u8; 16],
    pub format: u8,
    pub signature_kind: u8,
}
