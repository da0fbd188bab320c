//! Finds the archive: in the directory that AVANTRUSA_LIB names, or where host/archive puts it.

use std::path::{Path, PathBuf};
use std::{env, process};

const ARCHIVE: &str = "libswitch.a";
const USUAL_DIRECTORY: &str = "../../target/staticlib";

fn main() {
    println!("cargo:rerun-if-env-changed=AVANTRUSA_LIB");
    let directory = match env::var_os("AVANTRUSA_LIB") {
        Some(named) => PathBuf::from(named),
        None => Path::new(env!("CARGO_MANIFEST_DIR")).join(USUAL_DIRECTORY),
    };
    let archive = directory.join(ARCHIVE);
    println!("cargo:rerun-if-changed={}", archive.display());
    if !archive.is_file() {
        eprintln!("The judge is missing: there is no {}.", archive.display());
        eprintln!("Make it with `host/archive`, or name its directory in AVANTRUSA_LIB.");
        process::exit(1);
    }
    println!("cargo:rustc-link-search=native={}", directory.display());
    println!("cargo:rustc-link-lib=static=switch");
}
