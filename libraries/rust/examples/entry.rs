//! Makes an entry, puts it first in a set that comes from standard input, and writes the set.

use bootkeep::frame::Request;
use bootkeep::{option, DevicePath, Keeper, LoadOption};
use std::io::{self, Read, Write};

fn main() -> Result<(), Box<dyn std::error::Error>> {
    let mut variables = Vec::new();
    io::stdin().read_to_end(&mut variables)?;
    let path: DevicePath = r"PciRoot(0x0)/Pci(0x1,0x0)/\EFI\a.efi".parse()?;
    let entry = LoadOption::new(option::ACTIVE, "Mine", &[path], b"")?;
    let mut keeper = Keeper::open(&variables)?;
    eprintln!("{}", keeper.request(Request::AddFirst(&entry))?);
    io::stdout().write_all(&keeper.set()?)?;
    Ok(())
}
