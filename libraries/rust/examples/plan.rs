//! Shows what a boot would try with the variables of a set that comes from standard input, and all of its entries.

use bootkeep::vars;
use std::io::{self, Read};

fn main() -> Result<(), Box<dyn std::error::Error>> {
    let mut variables = Vec::new();
    io::stdin().read_to_end(&mut variables)?;
    println!("{}", vars::plan(&variables)?);
    for entry in vars::entries(&variables)? {
        println!("{entry}");
    }
    Ok(())
}
