//! Takes frames from standard input, one after the other, and keeps a set file by them. So whoever has read a reply knows
//! that its request is stored, also if the program is killed: the frames are then sent again.
//!
//! keep SET <FRAMES

use bootkeep::{frame, SetFile};
use std::io;

fn main() -> Result<(), Box<dyn std::error::Error>> {
    let path = std::env::args_os().nth(1).ok_or("the word is missing that names a set file")?;
    let mut kept = SetFile::open(path)?;
    for frame in frame::read(io::stdin().lock()) {
        println!("{}", kept.deliver(&frame?)?);
    }
    Ok(())
}
