//! Reading, writing and checking load options. One call on a small option takes less than the clock can tell,
//! so each is timed over many.

use crate::option::{LoadOption, check_option, read_option, write_option};
use std::error::Error;
use std::hint::black_box;
use std::time::{Duration, Instant};

/// How many calls are timed as one.
const CALLS: usize = 100;

/// How many paths the option has, how many bytes it takes and all calls go over, how many units its
/// description and bytes its optional data have, and its attributes.
pub fn held(bytes: &[u8]) -> Result<String, Box<dyn Error>> {
    let option = read_option(bytes)?;
    Ok(format!(
        "{} {} {} {} {} {}",
        option.paths.len(),
        bytes.len(),
        bytes.len() * CALLS,
        option.description.len(),
        option.optional.len(),
        check_option(bytes)?.attributes
    ))
}

/// The time of the reads of the bytes, of the writes, and of the checks.
pub fn times(bytes: &[u8]) -> Result<Vec<Duration>, Box<dyn Error>> {
    let (options, read) = read_timed(bytes)?;
    let write = write_timed(&options, bytes)?;
    let check = check_timed(bytes)?;
    Ok(vec![read, write, check])
}

fn check_timed(bytes: &[u8]) -> Result<Duration, Box<dyn Error>> {
    let mut len = 0;
    let start = Instant::now();
    for _ in 0..CALLS {
        let view = black_box(check_option(black_box(bytes)))?;
        len += view.description.len() + view.list.len() + view.optional.len();
    }
    let time = start.elapsed();
    if len != CALLS * (bytes.len() - 8) {
        return Err("plain Rust finds other parts of an option than it has".into());
    }
    Ok(time)
}

fn read_timed(bytes: &[u8]) -> Result<(Vec<LoadOption>, Duration), Box<dyn Error>> {
    let mut options = Vec::with_capacity(CALLS);
    let start = Instant::now();
    for _ in 0..CALLS {
        options.push(black_box(read_option(black_box(bytes)))?);
    }
    Ok((options, start.elapsed()))
}

/// Writes the options, each of which the bytes spell.
fn write_timed(options: &[LoadOption], bytes: &[u8]) -> Result<Duration, Box<dyn Error>> {
    let mut outs = Vec::with_capacity(options.len());
    let start = Instant::now();
    for option in options {
        outs.push(black_box(write_option(black_box(option)))?);
    }
    let time = start.elapsed();
    if outs.iter().any(|out| out != bytes) {
        return Err("plain Rust writes another option than it has read".into());
    }
    Ok(time)
}
