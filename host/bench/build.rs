//! Links the judge's archive: AVANTRUSA_LIB names its folder, else it is the repository's target/staticlib.

use std::path::{Path, PathBuf};

fn main() {
    println!("cargo:rerun-if-env-changed=AVANTRUSA_LIB");
    let usual = Path::new(env!("CARGO_MANIFEST_DIR")).join("../../target/staticlib");
    let folder = std::env::var_os("AVANTRUSA_LIB").map_or(usual, PathBuf::from);
    let archive = folder.join("libswitch.a");
    assert!(archive.exists(), "no archive {}: `host/archive` makes it", archive.display());
    println!("cargo:rerun-if-changed={}", archive.display());
    println!("cargo:rustc-link-search=native={}", folder.display());
    println!("cargo:rustc-link-lib=static=switch");
}
