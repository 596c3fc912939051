//! Finding the least free number when the numbers of the entries have no gap.

use crate::plan::lowest_free;
use crate::set::{Vars, read_set};
use std::error::Error;
use std::hint::black_box;
use std::time::{Duration, Instant};

/// How many variables the set has, and how many bytes it takes.
pub fn held(bytes: &[u8]) -> Result<String, Box<dyn Error>> {
    Ok(format!("{} {}", read_set(bytes)?.len(), bytes.len()))
}

/// The time of finding the number.
pub fn times(bytes: &[u8]) -> Result<Vec<Duration>, Box<dyn Error>> {
    let vars = read_set(bytes)?;
    Ok(vec![find_timed(&vars)?])
}

/// Finds the least free number of the variables: all are entries, with the numbers from 0 on, but for BootOrder.
fn find_timed(vars: &Vars) -> Result<Duration, Box<dyn Error>> {
    let start = Instant::now();
    let free = black_box(lowest_free(black_box(vars)));
    let time = start.elapsed();
    if free.map(|number| usize::from(number) + 1) != Some(vars.len()) {
        return Err("plain Rust finds another number than the least that is free".into());
    }
    Ok(time)
}
