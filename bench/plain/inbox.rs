//! Streams of frames, which come in pieces.

const HEADER_LEN: usize = 12;

const PAYLOAD_MAX: usize = 131_072;

/// Why a stream isn't cut any further.
#[derive(Clone, Copy, Debug, PartialEq, Eq)]
pub enum Fault {
    BadMagic,
    BadVersion,
    TooLong,
}

/// The bytes of the frame that isn't whole yet, or the fault of a header.
#[derive(Default)]
pub struct Inbox {
    held: Vec<u8>,
    fault: Option<Fault>,
}

impl Inbox {
    /// Takes the next bytes, and appends the frames that they bring to their ends.
    pub fn feed(&mut self, bytes: &[u8], frames: &mut Vec<Vec<u8>>) -> Result<(), Fault> {
        if let Some(fault) = self.fault {
            return Err(fault);
        }
        let mut rest = bytes;
        while !rest.is_empty() {
            let (front, behind) = rest.split_at(missing(&self.held)?.min(rest.len()));
            self.held.extend_from_slice(front);
            rest = behind;
            match missing(&self.held) {
                Ok(0) => frames.push(std::mem::take(&mut self.held)),
                Ok(_) => {}
                Err(fault) => {
                    self.held.clear();
                    self.fault = Some(fault);
                    return Err(fault);
                }
            }
        }
        Ok(())
    }

    pub fn held(&self) -> usize {
        self.held.len()
    }
}

/// How many bytes are missing of the header, or of what it states.
fn missing(held: &[u8]) -> Result<usize, Fault> {
    let Some((header, payload)) = held.split_first_chunk::<HEADER_LEN>() else {
        return Ok(HEADER_LEN - held.len());
    };
    let [m, n, version, _, _, _, _, _, a, b, c, d] = *header;
    if [m, n] != [0x42, 0x51] {
        return Err(Fault::BadMagic);
    }
    if version != 1 {
        return Err(Fault::BadVersion);
    }
    let len = u32::from_le_bytes([a, b, c, d]) as usize;
    if len > PAYLOAD_MAX {
        return Err(Fault::TooLong);
    }
    Ok(len - payload.len())
}
