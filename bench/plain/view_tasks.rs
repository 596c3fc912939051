//! Looking at the nodes of paths where they are in the bytes.

use crate::reader::{check_path, nodes};
use std::error::Error;
use std::hint::black_box;
use std::time::{Duration, Instant};

/// How many nodes the path has, the ends of its instances but the last included, how many bytes it
/// takes, how many of these are data, and how many of the nodes are ends.
pub fn held(bytes: &[u8]) -> Result<String, Box<dyn Error>> {
    let count = nodes(bytes)?.count();
    let ends = nodes(bytes)?
        .filter(|node| (node.kind, node.sub) == (0x7f, 0x01))
        .count();
    let data = data_len(bytes)?;
    Ok(format!("{count} {} {data} {ends}", bytes.len()))
}

/// The time of a check of the bytes, and of going over the nodes.
pub fn times(bytes: &[u8]) -> Result<Vec<Duration>, Box<dyn Error>> {
    Ok(vec![check_timed(bytes)?, walk_timed(bytes)?])
}

fn check_timed(bytes: &[u8]) -> Result<Duration, Box<dyn Error>> {
    let start = Instant::now();
    let len = black_box(check_path(black_box(bytes)))?;
    let time = start.elapsed();
    if len != bytes.len() {
        return Err(format!("plain Rust finds {len} bytes of a path of {}", bytes.len()).into());
    }
    Ok(time)
}

fn walk_timed(bytes: &[u8]) -> Result<Duration, Box<dyn Error>> {
    let start = Instant::now();
    let len = black_box(data_len(black_box(bytes)))?;
    let time = start.elapsed();
    if len >= bytes.len() {
        return Err("plain Rust finds more data than bytes".into());
    }
    Ok(time)
}

/// How many bytes of data the nodes have together.
fn data_len(bytes: &[u8]) -> Result<usize, Box<dyn Error>> {
    Ok(nodes(bytes)?.map(|node| node.body.len()).sum())
}
