//! Reading and writing sets of variables, and planning.

use crate::plan::{boot_order, plan};
use crate::set::{Vars, read_set, write_set};
use std::error::Error;
use std::hint::black_box;
use std::time::{Duration, Instant};

/// How many variables the set has, how many bytes it takes, and how many numbers its BootOrder and
/// options its plan have.
pub fn held(bytes: &[u8]) -> Result<String, Box<dyn Error>> {
    let vars = read_set(bytes)?;
    Ok(format!(
        "{} {} {} {}",
        vars.len(),
        bytes.len(),
        boot_order(&vars)?.len(),
        plan(&vars)?.normal.len()
    ))
}

/// The time of a read of the bytes, of a write, and of planning.
pub fn times(bytes: &[u8]) -> Result<Vec<Duration>, Box<dyn Error>> {
    let (vars, read) = read_timed(bytes)?;
    let write = write_timed(&vars, bytes)?;
    let planning = plan_timed(&vars)?;
    Ok(vec![read, write, planning])
}

fn read_timed(bytes: &[u8]) -> Result<(Vars, Duration), Box<dyn Error>> {
    let start = Instant::now();
    let vars = black_box(read_set(black_box(bytes)))?;
    Ok((vars, start.elapsed()))
}

/// Writes the variables, which the bytes spell.
fn write_timed(vars: &Vars, bytes: &[u8]) -> Result<Duration, Box<dyn Error>> {
    let start = Instant::now();
    let out = black_box(write_set(black_box(vars)));
    let time = start.elapsed();
    if out != bytes {
        return Err("plain Rust writes another set than it has read".into());
    }
    Ok(time)
}

/// Plans a boot from the variables, whose BootOrder has only normal options.
fn plan_timed(vars: &Vars) -> Result<Duration, Box<dyn Error>> {
    let start = Instant::now();
    let planned = black_box(plan(black_box(vars)))?;
    let time = start.elapsed();
    let numbers = planned.normal.iter().map(|choice| choice.number);
    if planned.next.is_some() || !numbers.eq(boot_order(vars)?) {
        return Err("plain Rust plans another order than the variables have".into());
    }
    Ok(time)
}
