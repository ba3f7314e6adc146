//! Links libccfb.a from the folder that CCFB_LIB_DIR names, a full path, or from where
//! scripts/library or a release has it. `cargo doc`, `cargo check` and `cargo clippy` need no
//! library.

use std::env;
use std::path::{Path, PathBuf};
use std::process::exit;

const LIBRARY: &str = "libccfb.a";

/// Where it may be, beside this crate: as scripts/library puts it, and as a release has it.
const FOLDERS: [&str; 2] = ["build/ccfb/lib", "lib"];

/// Linked in place of a library that is not there: the linker repeats the name of what it cannot
/// find. A warning is not enough, since cargo shows it for path dependencies only.
const NOT_THERE: &str = "ccfb (run scripts/library, or set CCFB_LIB_DIR)";

fn main() {
    println!("cargo::rerun-if-changed=build.rs");
    println!("cargo::rerun-if-env-changed=CCFB_LIB_DIR");
    match env::var_os("CCFB_LIB_DIR") {
        Some(folder) => link_named(Path::new(&folder)),
        None => link_beside(),
    }
}

/// Links from the folder that the user named, or says why it cannot and fails.
fn link_named(folder: &Path) {
    if folder.is_relative() {
        refuse(&format!(
            "CCFB_LIB_DIR is {folder:?}: set it to the full path of the folder of {LIBRARY}"
        ));
    }
    if !folder.join(LIBRARY).is_file() {
        refuse(&format!(
            "CCFB_LIB_DIR is {folder:?}, but it has no {LIBRARY}: scripts/library builds one, \
             and a release has one"
        ));
    }
    link(folder);
}

/// Links from a folder beside the crate. If the library is not there, only linking fails.
fn link_beside() {
    let beside = |folder| Path::new(env!("CARGO_MANIFEST_DIR")).with_file_name(folder);
    let folders: Vec<PathBuf> = FOLDERS.iter().map(beside).collect();
    if let Some(folder) = folders.iter().find(|folder| folder.join(LIBRARY).is_file()) {
        return link(folder);
    }
    for folder in &folders {
        println!("cargo::rerun-if-changed={}", folder.join(LIBRARY).display());
    }
    println!(
        "cargo::warning={} is not there, so programs and tests will not link: run \
         scripts/library, or set CCFB_LIB_DIR to the full path of the folder of {LIBRARY}",
        folders[0].join(LIBRARY).display()
    );
    println!("cargo::rustc-link-lib=static:-bundle={NOT_THERE}"); // not looked for until then
}

fn link(folder: &Path) {
    println!("cargo::rerun-if-changed={}", folder.join(LIBRARY).display());
    println!("cargo::rustc-link-search=native={}", folder.display());
    println!("cargo::rustc-link-lib=static=ccfb");
}

fn refuse(why: &str) -> ! {
    eprintln!("{why}");
    exit(1)
}
