//! Planning, when no entry is normal, or when all are and BootOrder repeats their numbers.

use crate::plan::{boot_order, plan};
use crate::set::{Vars, read_set};
use std::error::Error;
use std::hint::black_box;
use std::time::{Duration, Instant};

/// How many variables the set has, how many bytes it takes, and how many numbers its BootOrder and
/// options its plan have.
pub fn held(bytes: &[u8]) -> Result<String, Box<dyn Error>> {
    let vars = read_set(bytes)?;
    Ok(format!(
        "{} {} {} {}",
        vars.len(),
        bytes.len(),
        boot_order(&vars)?.len(),
        plan(&vars)?.normal.len()
    ))
}

/// The time of planning.
pub fn times(bytes: &[u8]) -> Result<Vec<Duration>, Box<dyn Error>> {
    let vars = read_set(bytes)?;
    Ok(vec![plan_timed(&vars)?])
}

/// Plans a boot from the variables, of which all entries are normal or none is.
fn plan_timed(vars: &Vars) -> Result<Duration, Box<dyn Error>> {
    let start = Instant::now();
    let planned = black_box(plan(black_box(vars)))?;
    let time = start.elapsed();
    let numbers = planned.normal.iter().map(|choice| choice.number);
    if planned.next.is_some() || !(planned.normal.is_empty() || numbers.eq(boot_order(vars)?)) {
        return Err("plain Rust plans another order than the variables have".into());
    }
    Ok(time)
}
