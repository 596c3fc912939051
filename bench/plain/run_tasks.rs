//! Runs of deliveries: in two, one in a hundred is of a new number and the others repeat it; in the third, each is.

use crate::frame::{Request, write_frame};
use crate::keeper::{Keeper, Outcome, Reply};
use crate::set::read_set;
use std::error::Error;
use std::hint::black_box;
use std::time::{Duration, Instant};

/// How many deliveries each run has, and how often each request is delivered.
const RUNS: [(u32, u32); 3] = [(1_000, 100), (100_000, 100), (1_000, 1)];

/// How many bytes a frame has.
const FRAME_LEN: u32 = 14;

/// How many entries the set has, how many bytes it takes, and how many all frames of each run.
pub fn held(bytes: &[u8]) -> Result<String, Box<dyn Error>> {
    let vars = read_set(bytes)?;
    let [short, long, new] = RUNS.map(|(events, _)| events * FRAME_LEN);
    Ok(format!(
        "{} {} {short} {long} {new}",
        vars.len() - 1,
        bytes.len()
    ))
}

/// The time of each run.
pub fn times(bytes: &[u8]) -> Result<Vec<Duration>, Box<dyn Error>> {
    RUNS.iter()
        .map(|(events, times)| run_timed(bytes, *events, *times))
        .collect()
}

/// Makes entries the next one, in turn.
fn run_timed(bytes: &[u8], events: u32, times: u32) -> Result<Duration, Box<dyn Error>> {
    let mut keeper = Keeper::new(read_set(bytes)?);
    let frames = (0..events)
        .map(|event| event / times)
        .map(|number| write_frame(number, &Request::Next((number % 16) as u16)))
        .collect::<Result<Vec<_>, _>>()?;
    let mut replies = Vec::new();
    let start = Instant::now();
    for frame in black_box(&frames) {
        replies.push(keeper.take(frame)?);
    }
    let time = start.elapsed();
    let last = match times {
        1 => Reply::Applied(Outcome::Done, events),
        _ => Reply::Repeat(Outcome::Done),
    };
    if replies.len() != frames.len() || replies.last() != Some(&last) {
        return Err("plain Rust answers otherwise".into());
    }
    Ok(time)
}
