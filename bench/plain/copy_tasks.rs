//! Copying sets of variables. The copy shares the data, as that of the product does.

use crate::set::{Vars, read_set, write_set};
use std::error::Error;
use std::hint::black_box;
use std::time::{Duration, Instant};

/// How many variables the set has, and how many bytes it takes.
pub fn held(bytes: &[u8]) -> Result<String, Box<dyn Error>> {
    Ok(format!("{} {}", read_set(bytes)?.len(), bytes.len()))
}

/// The time of a copy.
pub fn times(bytes: &[u8]) -> Result<Vec<Duration>, Box<dyn Error>> {
    let vars = read_set(bytes)?;
    Ok(vec![copy_timed(&vars, bytes)?])
}

/// Copies the variables, which the bytes spell.
fn copy_timed(vars: &Vars, bytes: &[u8]) -> Result<Duration, Box<dyn Error>> {
    let start = Instant::now();
    let copy = black_box(black_box(vars).clone());
    let time = start.elapsed();
    if write_set(&copy) != bytes {
        return Err("plain Rust copies another set than it has read".into());
    }
    Ok(time)
}
