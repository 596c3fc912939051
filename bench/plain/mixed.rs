//! The values that both sides are timed on. They are the same at each call.

use crate::plan::entry_name;
use std::error::Error;

/// Type, sub-type and lengths of data of the nodes, which follow one another in this order. At each
/// round a node takes the next of its lengths. The last two rows are kept as bytes: the one has a
/// type without a case of its own, and the other a length that is not its type's.
const ROWS: [(u8, u8, &[usize]); 17] = [
    (1, 1, &[2]),
    (1, 4, &[16, 24, 80]),
    (2, 1, &[8]),
    (3, 5, &[2]),
    (3, 10, &[16, 20, 48]),
    (3, 11, &[33]),
    (3, 12, &[23]),
    (3, 18, &[6]),
    (3, 20, &[2]),
    (3, 23, &[12]),
    (3, 24, &[0, 31, 90]),
    (4, 1, &[38]),
    (4, 2, &[20]),
    (4, 3, &[16, 32, 64]),
    (4, 4, &[2, 26, 66]),
    (5, 1, &[0, 13, 40]),
    (3, 12, &[15]),
];

/// The type and the sub-type whose data is text of 16-bit units, ended by a zero.
const FILE_PATH: (u8, u8) = (4, 4);

/// The attributes of an option that is tried by itself, and of one that isn't.
const ACTIVE: u32 = 1;

const INACTIVE: u32 = 0;

/// How many nodes an instance has.
const INSTANCE: usize = 1_000;

/// How far apart the numbers of neighbours in BootOrder are. It is a prime.
const STRIDE: usize = 7_919;

/// A path to a disk: an ACPI root, a PCI function and a SATA port.
const DISK: [u8; 32] = [
    0x02, 0x01, 0x0c, 0x00, 0xd0, 0x41, 0x03, 0x0a, 0x00, 0x00, 0x00, 0x00, 0x01, 0x01, 0x06, 0x00,
    0x02, 0x1f, 0x03, 0x12, 0x0a, 0x00, 0x00, 0x00, 0xff, 0xff, 0x00, 0x00, 0x7f, 0xff, 0x04, 0x00,
];

/// How many numbers a BootOrder has that repeats them.
const REPEATED: usize = 65_536;

/// The bytes of a value of this kind and size: a number and, for a set, perhaps an `x` and how many bytes its entries
/// have.
pub fn value_of(kind: &str, size: &str) -> Result<Vec<u8>, Box<dyn Error>> {
    let (count, len) = size.split_once('x').unwrap_or((size, "0"));
    let (count, len) = (count.parse()?, len.parse()?);
    match kind {
        "path" | "view" => Ok(path_of(count)),
        "option" => option_of(ACTIVE, count),
        "set" | "copy" | "free" | "step" | "run" => set_of(ACTIVE, count, len, count),
        "idle" => set_of(INACTIVE, count, len, count),
        "repeat" => set_of(ACTIVE, count, len, REPEATED),
        "frame" => frame_of(count),
        "stream" => stream_of(count),
        _ => Err(
            "the kinds are path, view, option, set, copy, free, idle, repeat, frame, stream, step and run".into(),
        ),
    }
}

/// The bytes of an option with these attributes, of this many paths to a disk, with as many letters in its description,
/// and with 16 bytes of optional data for each path but the first.
fn option_of(attributes: u32, paths: usize) -> Result<Vec<u8>, Box<dyn Error>> {
    let mut option = attributes.to_le_bytes().to_vec();
    option.extend(u16::try_from(paths * DISK.len())?.to_le_bytes());
    option.extend([b'A', 0].repeat(paths));
    option.extend([0, 0]);
    option.extend(DISK.repeat(paths));
    option.extend([0x5a; 16].repeat(paths - 1));
    Ok(option)
}

/// The bytes of a set of this many entries and of a BootOrder of this many numbers. Each entry is the option of one
/// path with these attributes, and each but the first has as much optional data as makes it `len` bytes. The BootOrder
/// names each entry in turn, in another order than that of their numbers.
fn set_of(
    attributes: u32,
    entries: usize,
    len: usize,
    numbers: usize,
) -> Result<Vec<u8>, Box<dyn Error>> {
    let mut set = b"BVS1".to_vec();
    for index in 0..entries {
        let mut option = option_of(attributes, 1)?;
        if index > 0 {
            option.resize(len.max(option.len()), 0x5a);
        }
        append_variable(&entry_name(u16::try_from(index)?), &option, &mut set)?;
    }
    let mut order = Vec::new();
    for index in 0..numbers {
        order.extend(u16::try_from(index * STRIDE % entries)?.to_le_bytes());
    }
    append_variable(b"BootOrder", &order, &mut set)?;
    Ok(set)
}

/// The frame of request 0, to add entry 0: an active option of one path to a disk, with as much optional data as makes
/// a payload of this many bytes.
fn frame_of(payload: usize) -> Result<Vec<u8>, Box<dyn Error>> {
    let mut frame = vec![0x42, 0x51, 1, 1, 0, 0, 0, 0];
    frame.extend(u32::try_from(payload)?.to_le_bytes());
    frame.extend([0, 0]);
    frame.extend(option_of(ACTIVE, 1)?);
    frame.resize(12 + payload, 0x5a);
    Ok(frame)
}

/// The bytes of frames whose payloads have 44 to 1,044 bytes, one after the other, at least this many bytes.
fn stream_of(len: usize) -> Result<Vec<u8>, Box<dyn Error>> {
    let mut stream = Vec::new();
    for payload in (44..1_045).step_by(100).cycle() {
        if stream.len() >= len {
            break;
        }
        stream.extend(frame_of(payload)?);
    }
    Ok(stream)
}

fn append_variable(name: &[u8], data: &[u8], set: &mut Vec<u8>) -> Result<(), Box<dyn Error>> {
    set.push(u8::try_from(name.len())?);
    set.extend_from_slice(name);
    set.extend(u32::try_from(data.len())?.to_le_bytes());
    set.extend_from_slice(data);
    Ok(())
}

/// The bytes of a path of this many nodes.
fn path_of(count: usize) -> Vec<u8> {
    let mut path = Vec::new();
    let mut seed = 1;
    for index in 0..count {
        if index > 0 && index % INSTANCE == 0 {
            path.extend([0x7f, 0x01, 4, 0]);
        }
        let (kind, sub, lengths) = ROWS[index % ROWS.len()];
        let len = lengths[index / ROWS.len() % lengths.len()];
        path.extend([kind, sub]);
        path.extend((4 + len as u16).to_le_bytes());
        if (kind, sub) == FILE_PATH {
            path.extend((2..len).map(|_| next_byte(&mut seed) | 1));
            path.extend([0, 0]);
        } else {
            path.extend((0..len).map(|_| next_byte(&mut seed)));
        }
    }
    path.extend([0x7f, 0xff, 4, 0]);
    path
}

/// The next of a sequence of bytes without a pattern, by a linear congruence.
fn next_byte(seed: &mut u64) -> u8 {
    *seed = seed
        .wrapping_mul(6_364_136_223_846_793_005)
        .wrapping_add(1_442_695_040_888_963_407);
    (*seed >> 56) as u8
}
