//! Steps: an Add, a Replace, a repeat, a First and an AddFirst, each from a keeper to a new one.

use crate::frame::{Request, write_frame};
use crate::keeper::{Keeper, Outcome, Reply};
use crate::option::read_option;
use crate::plan::boot_order;
use crate::set::{read_set, write_set};
use std::error::Error;
use std::hint::black_box;
use std::time::{Duration, Instant};

/// How many entries the set has, how many bytes it takes, and what comes of the Add: 0 if its entry is stored, and 1 if
/// all numbers are taken.
pub fn held(bytes: &[u8]) -> Result<String, Box<dyn Error>> {
    let vars = read_set(bytes)?;
    let entries = vars.len() - 1;
    let exists = usize::from(entries > usize::from(u16::MAX));
    Ok(format!("{entries} {} {exists}", bytes.len()))
}

/// The time of the Add of an entry, of the Replace of one, of the repeat of the first, and of a First and an AddFirst.
pub fn times(bytes: &[u8]) -> Result<Vec<Duration>, Box<dyn Error>> {
    let vars = read_set(bytes)?;
    let entries = boot_order(&vars)?.len();
    let new = u16::try_from(entries).unwrap_or(0);
    let outcome = if entries > usize::from(u16::MAX) {
        Outcome::Exists
    } else {
        Outcome::Done
    };
    let option = || read_option(vars.get("Boot0000").unwrap_or_default());
    let add = write_frame(0, &Request::Add(new, option()?))?;
    let replace = write_frame(1, &Request::Replace(0, option()?))?;
    let keeper = Keeper::new(read_set(bytes)?);
    let (keeper, added) = step_timed(&keeper, &add, Reply::Applied(outcome, 1))?;
    let (keeper, replaced) = step_timed(&keeper, &replace, Reply::Applied(Outcome::Done, 2))?;
    let (after, repeated) = step_timed(&keeper, &add, Reply::Repeat(outcome))?;
    if write_set(after.vars()) != write_set(keeper.vars()) {
        return Err("plain Rust changes variables at a repeat".into());
    }
    let first = write_frame(2, &Request::First(0))?;
    let add_first = write_frame(3, &Request::AddFirst(option()?))?;
    let (keeper, put) = step_timed(&after, &first, Reply::Applied(Outcome::Done, 3))?;
    let told = u16::try_from(entries + 1).map_or(Outcome::NoFree, Outcome::Added);
    let (_, added_first) = step_timed(&keeper, &add_first, Reply::Applied(told, 4))?;
    Ok(vec![added, replaced, repeated, put, added_first])
}

/// The step is made once before it is timed, so that how much was read before doesn't count.
fn step_timed(
    keeper: &Keeper,
    frame: &[u8],
    expected: Reply,
) -> Result<(Keeper, Duration), Box<dyn Error>> {
    black_box(keeper.deliver(black_box(frame)))?;
    let start = Instant::now();
    let (next, reply) = black_box(keeper.deliver(black_box(frame)))?;
    let time = start.elapsed();
    if reply != expected {
        return Err("plain Rust answers otherwise".into());
    }
    Ok((next, time))
}
