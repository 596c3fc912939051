//! Reading and writing frames. One call on a small frame takes less than the clock can tell, so each is
//! timed over many.

use crate::frame::{Request, read_frame, write_frame};
use std::error::Error;
use std::hint::black_box;
use std::time::{Duration, Instant};

/// How many calls are timed as one.
const CALLS: usize = 100;

/// How many bytes the payload has, how many the frame takes and all calls go over, and the number.
pub fn held(bytes: &[u8]) -> Result<String, Box<dyn Error>> {
    let (number, _) = read_frame(bytes)?;
    Ok(format!(
        "{} {} {} {number}",
        bytes.len() - 12,
        bytes.len(),
        bytes.len() * CALLS
    ))
}

/// The time of the reads of the bytes, and of the writes.
pub fn times(bytes: &[u8]) -> Result<Vec<Duration>, Box<dyn Error>> {
    let (frames, read) = read_timed(bytes)?;
    let write = write_timed(&frames, bytes)?;
    Ok(vec![read, write])
}

fn read_timed(bytes: &[u8]) -> Result<(Vec<(u32, Request)>, Duration), Box<dyn Error>> {
    let mut frames = Vec::with_capacity(CALLS);
    let start = Instant::now();
    for _ in 0..CALLS {
        frames.push(black_box(read_frame(black_box(bytes)))?);
    }
    Ok((frames, start.elapsed()))
}

/// Writes the requests, each of which the bytes spell.
fn write_timed(frames: &[(u32, Request)], bytes: &[u8]) -> Result<Duration, Box<dyn Error>> {
    let mut outs = Vec::with_capacity(frames.len());
    let start = Instant::now();
    for (number, request) in frames {
        outs.push(black_box(write_frame(*number, black_box(request)))?);
    }
    let time = start.elapsed();
    if outs.iter().any(|out| out != bytes) {
        return Err("plain Rust writes another frame than it has read".into());
    }
    Ok(time)
}
