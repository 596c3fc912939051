//! Adds an entry for a loader, puts it first, and shows what a boot would try then; or takes the last change back. Of the
//! machine that this runs on VARIABLES is /sys/firmware/efi/efivars, and STATE /var/lib/bootkeep.
//!
//! machine VARIABLES STATE /boot/efi/EFI/rescue/grubx64.efi Rescue
//! machine VARIABLES STATE undo

use bootkeep::machine::{Loader, LoaderAddition, MachineOptions, Mode};

fn main() -> Result<(), Box<dyn std::error::Error>> {
    let words: Vec<String> = std::env::args().collect();
    let (variables, state, asked) = match &words[..] {
        [_, variables, state, asked @ ..] => (variables, state, asked),
        _ => return Err("two folders are wanted".into()),
    };
    let mut machine = MachineOptions::new().variables(variables).state(state).words(&words).open()?;
    match asked {
        [undo] if undo == "undo" => machine.undo(false, Mode::Real)?,
        [file, name] => {
            machine.add_loader(&LoaderAddition::new(Loader::new(file.as_ref(), name)).first(), Mode::Real)?
        }
        _ => return Err("a file and a description are wanted, or the word undo".into()),
    };
    println!("{}", machine.plan()?);
    machine.entries()?.iter().for_each(|entry| println!("{entry}"));
    Ok(())
}
