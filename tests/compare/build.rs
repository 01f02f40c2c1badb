//! Links the static library of exported functions.
//!
//! `REHEARSAL_LIB_DIR` names the directory that holds `libexports.a`; without
//! it the directory is `crates/exports/out`, where `rt lib` puts it.

use std::env;
use std::path::PathBuf;

fn main() {
    println!("cargo:rerun-if-env-changed=REHEARSAL_LIB_DIR");
    let directory = env::var_os("REHEARSAL_LIB_DIR").map_or_else(default_directory, PathBuf::from);
    let archive = directory.join("libexports.a");
    println!("cargo:rerun-if-changed={}", archive.display());
    println!("cargo:rustc-link-search=native={}", directory.display());
    println!("cargo:rustc-link-lib=static=exports");
}

fn default_directory() -> PathBuf {
    let package = env::var_os("CARGO_MANIFEST_DIR").expect("cargo names the package's directory");
    PathBuf::from(package).join("../../crates/exports/out")
}
