//! The plain side of the benchmark: what reads and writes paths, load options, sets of variables and
//! frames, prints and reads the text of paths, plans a boot, and changes variables by numbered
//! requests, without proofs, in the Rust of `rustc` and its standard library alone. It also makes the
//! values that both sides are timed on.
//!
//! `plain make KIND SIZE FILE` writes a value to a file: a `path` of SIZE nodes, the same for a `view`, an `option` of
//! SIZE paths, a `set` of SIZE entries, the same for a `copy`, a `free` number, a `step` or a `run`, an `idle` one, of
//! which no entry is active, one whose BootOrder has `repeat`s, a `frame` with a payload of SIZE bytes, or a `stream`
//! of SIZE bytes at least. After the number of entries there may be an `x` and how many bytes they have, all but the
//! first. `plain time KIND FILE` times the value in a file and prints one line: what the value has, and, after a colon,
//! the shortest time of each call in nanoseconds. The files `.._tasks` say what these are. The times have the growth of
//! what is made in them, and not its drop. Each answer is compared outside of them, and a wrong one ends the program.

mod copy_tasks;
mod frame;
mod frame_tasks;
mod free_tasks;
mod inbox;
mod keeper;
mod mixed;
mod node;
mod option;
mod option_tasks;
mod path_tasks;
mod plan;
mod plan_tasks;
mod reader;
mod run_tasks;
mod set;
mod set_tasks;
mod step_tasks;
mod stream_tasks;
mod text_reader;
mod text_writer;
mod view_tasks;
mod writer;

use std::error::Error;
use std::time::{Duration, Instant};
use std::{env, fs};

/// How long the calls are repeated.
const ENOUGH: Duration = Duration::from_millis(500);

fn main() -> Result<(), Box<dyn Error>> {
    let words: Vec<String> = env::args().skip(1).collect();
    match words.iter().map(String::as_str).collect::<Vec<_>>()[..] {
        ["make", kind, size, file] => fs::write(file, mixed::value_of(kind, size)?)?,
        ["time", kind, file] => time_value(kind, &fs::read(file)?)?,
        _ => return Err("usage: plain make KIND SIZE FILE | time KIND FILE".into()),
    }
    Ok(())
}

fn time_value(kind: &str, bytes: &[u8]) -> Result<(), Box<dyn Error>> {
    match kind {
        "path" => {
            let (held, text) = path_tasks::held(bytes)?;
            print_times(&held, || path_tasks::times(bytes, &text))
        }
        "view" => print_times(&view_tasks::held(bytes)?, || view_tasks::times(bytes)),
        "option" => print_times(&option_tasks::held(bytes)?, || option_tasks::times(bytes)),
        "set" => print_times(&set_tasks::held(bytes)?, || set_tasks::times(bytes)),
        "copy" => print_times(&copy_tasks::held(bytes)?, || copy_tasks::times(bytes)),
        "free" => print_times(&free_tasks::held(bytes)?, || free_tasks::times(bytes)),
        "idle" | "repeat" => print_times(&plan_tasks::held(bytes)?, || plan_tasks::times(bytes)),
        "frame" => print_times(&frame_tasks::held(bytes)?, || frame_tasks::times(bytes)),
        "step" => print_times(&step_tasks::held(bytes)?, || step_tasks::times(bytes)),
        "stream" => print_times(&stream_tasks::held(bytes)?, || stream_tasks::times(bytes)),
        "run" => print_times(&run_tasks::held(bytes)?, || run_tasks::times(bytes)),
        _ => Err(
            "the kinds are path, view, option, set, copy, free, idle, repeat, frame, stream, step and run".into(),
        ),
    }
}

/// Prints what the value has and the shortest time of each call, of as many turns as take half a
/// second.
fn print_times(
    held: &str,
    turn: impl Fn() -> Result<Vec<Duration>, Box<dyn Error>>,
) -> Result<(), Box<dyn Error>> {
    let start = Instant::now();
    let mut shortest = turn()?;
    while start.elapsed() < ENOUGH {
        for (least, time) in shortest.iter_mut().zip(turn()?) {
            *least = time.min(*least);
        }
    }
    print!("{held} :");
    for time in shortest {
        print!(" {}", time.as_nanos());
    }
    println!();
    Ok(())
}
