//! Reading, writing, printing and parsing paths.

use crate::node::{Node, Path};
use crate::{reader, text_reader, text_writer, writer};
use std::error::Error;
use std::hint::black_box;
use std::time::{Duration, Instant};

/// How many nodes the path has, how many bytes it and its text take, and how many instances and
/// nodes of the case `Other` it has; and its text.
pub fn held(bytes: &[u8]) -> Result<(String, String), Box<dyn Error>> {
    let (path, _) = reader::read_path(bytes)?;
    let nodes = path.iter().flatten().count();
    let others = path
        .iter()
        .flatten()
        .filter(|node| matches!(node, Node::Other { .. }))
        .count();
    let text = text_writer::path_text(&path)?;
    let held = format!(
        "{nodes} {} {} {} {others}",
        bytes.len(),
        text.len(),
        path.len()
    );
    Ok((held, text))
}

/// The time of a read of the bytes, of a write, of printing and of reading the text. The text lives on between turns:
/// to free that much at once makes the allocator slower in the next.
pub fn times(bytes: &[u8], text: &str) -> Result<Vec<Duration>, Box<dyn Error>> {
    let (path, read) = read_timed(bytes)?;
    let write = write_timed(&path, bytes)?;
    let print = print_timed(&path, text)?;
    let parse = parse_timed(text, bytes)?;
    Ok(vec![read, write, print, parse])
}

fn read_timed(bytes: &[u8]) -> Result<(Path, Duration), Box<dyn Error>> {
    let start = Instant::now();
    let (path, len) = black_box(reader::read_path(black_box(bytes)))?;
    let time = start.elapsed();
    if len != bytes.len() {
        return Err(format!("plain Rust reads {len} bytes of a path of {}", bytes.len()).into());
    }
    Ok((path, time))
}

/// Writes the path, which the bytes spell.
fn write_timed(path: &Path, bytes: &[u8]) -> Result<Duration, Box<dyn Error>> {
    let mut out = Vec::new();
    let start = Instant::now();
    writer::write_path(black_box(path), &mut out);
    let time = start.elapsed();
    if out != bytes {
        return Err("plain Rust writes other bytes than it has read".into());
    }
    Ok(time)
}

/// Prints the path, which has this text.
fn print_timed(path: &Path, text: &str) -> Result<Duration, Box<dyn Error>> {
    let start = Instant::now();
    let printed = black_box(text_writer::path_text(black_box(path)))?;
    let time = start.elapsed();
    if printed != text {
        return Err("plain Rust prints the path in two ways".into());
    }
    Ok(time)
}

/// Reads the text, which is that of the path that the bytes spell.
fn parse_timed(text: &str, bytes: &[u8]) -> Result<Duration, Box<dyn Error>> {
    let start = Instant::now();
    let path = black_box(text_reader::read_text(black_box(text)))?;
    let time = start.elapsed();
    let mut out = Vec::new();
    writer::write_path(&path, &mut out);
    if out != bytes {
        return Err("plain Rust reads another path off the text".into());
    }
    Ok(time)
}
