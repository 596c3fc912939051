//! Has an entry of a set file start another file of its partition, and writes the set.
//!
//! edit_path SET 0001 '\EFI\BOOT\BOOTX64.EFI' >OTHER

use bootkeep::{vars, EntryNumber, Node};
use std::io::{self, Write};

fn main() -> Result<(), Box<dyn std::error::Error>> {
    let words: Vec<String> = std::env::args().skip(1).collect();
    let (file, entry, name) = match &words[..] {
        [file, entry, name] => (file, entry, name),
        _ => return Err("three words are wanted: SET 0001 FILE".into()),
    };
    let (variables, number) = (std::fs::read(file)?, entry.parse::<EntryNumber>()?);
    let option = vars::option(&variables, number)?;
    let mut paths = option.paths();
    paths[0] = paths[0].replace_last(Node::file(name)?)?;
    let changed = option.with_paths(&paths)?;
    eprintln!("Boot{number} {changed}");
    io::stdout().write_all(&vars::put(&variables, &number.name(), changed.as_ref())?)?;
    Ok(())
}
