//! Finds the libraries: in the folder that BOOTKEEP_LIBRARY_DIR names, as `tools/build-c FOLDER` makes it, or by
//! pkg-config. Without them only the pages of the crate can be made, with DOCS_RS set.

use std::env;
use std::path::Path;
use std::process::{self, Command};

/// The library over machines stands on the other one, and so comes first.
const LIBRARIES: [Library; 2] = [
    Library { name: "bootkeep-linux", feature: Some("CARGO_FEATURE_MACHINE") },
    Library { name: "bootkeep", feature: None },
];

/// A library, as the linker and pkg-config call it.
struct Library {
    name: &'static str,
    /// What is set in the environment if the feature is wanted that needs it; none if it is always needed.
    feature: Option<&'static str>,
}

fn main() {
    println!("cargo:rerun-if-changed=build.rs");
    for variable in
        ["BOOTKEEP_LIBRARY_DIR", "PKG_CONFIG_PATH", "PKG_CONFIG_LIBDIR", "PKG_CONFIG_SYSROOT_DIR", "DOCS_RS"]
    {
        println!("cargo:rerun-if-env-changed={variable}");
    }
    if env::var_os("DOCS_RS").is_some() {
        // The pages are made there without the library, as nothing is linked.
        return;
    }
    let target = env::var("TARGET").unwrap_or_default();
    if !target.starts_with("x86_64-") || !target.contains("-linux-") {
        give_up(&format!("the library is built for Linux on x86-64 alone, and this is for {target}"));
    }
    for library in LIBRARIES.iter().filter(|library| library.is_needed()) {
        library.link();
    }
}

impl Library {
    fn is_needed(&self) -> bool {
        self.feature.map_or(true, |feature| env::var_os(feature).is_some())
    }

    /// Has the archive of the library linked.
    fn link(&self) {
        let archive = format!("lib{}.a", self.name);
        let folder = env::var("BOOTKEEP_LIBRARY_DIR").ok().or_else(|| self.installed()).unwrap_or_default();
        // Cargo calls this in the crate's folder, and not in that in which it was called itself.
        if !Path::new(&folder).is_absolute() || !Path::new(&folder).join(&archive).is_file() {
            give_up(&format!(
                "BOOTKEEP_LIBRARY_DIR has to be the whole path of the folder of {archive}, which tools/build-c FOLDER \
                 makes: it is {folder:?}"
            ));
        }
        println!("cargo:rerun-if-changed={folder}/{archive}");
        println!("cargo:rustc-link-search=native={folder}");
        println!("cargo:rustc-link-lib=static={}", self.name);
    }

    /// The folder of the library that is installed, if pkg-config knows it.
    fn installed(&self) -> Option<String> {
        let asked = Command::new("pkg-config").args(["--variable=libdir", self.name]).output().ok()?;
        Some(String::from_utf8(asked.stdout).ok()?.trim().to_owned()).filter(|_| asked.status.success())
    }
}

/// Says why there is no library, and ends.
fn give_up(why: &str) -> ! {
    eprintln!("{why}");
    process::exit(1);
}
