//! Cutting a stream that comes in pieces of one byte, of 100, of 4,096, and whole.

use crate::inbox::Inbox;
use std::error::Error;
use std::hint::black_box;
use std::time::{Duration, Instant};

/// How many bytes the pieces have.
const PIECES: [usize; 4] = [1, 100, 4_096, usize::MAX];

/// How many frames the stream has, and how many bytes it takes.
pub fn held(bytes: &[u8]) -> Result<String, Box<dyn Error>> {
    let (frames, _) = feed_timed(bytes, bytes.len())?;
    Ok(format!("{frames} {}", bytes.len()))
}

/// The time of feeding the stream in pieces of each length.
pub fn times(bytes: &[u8]) -> Result<Vec<Duration>, Box<dyn Error>> {
    PIECES
        .iter()
        .map(|len| Ok(feed_timed(bytes, *len)?.1))
        .collect()
}

/// How many frames come of the stream in pieces of this length, and the time.
fn feed_timed(bytes: &[u8], len: usize) -> Result<(usize, Duration), Box<dyn Error>> {
    let mut inbox = Inbox::default();
    let mut frames = Vec::new();
    let start = Instant::now();
    for piece in black_box(bytes).chunks(len) {
        if inbox.feed(black_box(piece), &mut frames).is_err() {
            return Err("plain Rust refuses the stream".into());
        }
    }
    let time = start.elapsed();
    if inbox.held() != 0 || frames.concat() != bytes {
        return Err("plain Rust cuts the stream otherwise".into());
    }
    Ok((frames.len(), time))
}
