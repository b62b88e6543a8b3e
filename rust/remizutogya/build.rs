//! Finds the archive and has it linked.

use std::env;
use std::path::PathBuf;

/// The variable that names another directory to look in.
const DIRECTORY_VARIABLE: &str = "REMIZUTOGYA_ARCHIVE_DIR";

/// Where the archive is built, seen from this crate.
const BUILT_IN: &str = "../../target/staticlib";

fn main() {
    println!("cargo::rerun-if-changed=build.rs");
    println!("cargo::rerun-if-env-changed={DIRECTORY_VARIABLE}");
    if variable("CARGO_CFG_TARGET_ARCH") != "x86_64" || variable("CARGO_CFG_TARGET_OS") != "linux" {
        println!(
            "cargo::error=libremizutogya.a is for x86-64 Linux and cannot be linked for another target."
        );
        return;
    }
    link(archive_directory());
}

/// A variable's value, empty where it has none.
fn variable(name: &str) -> String {
    env::var(name).unwrap_or_default()
}

/// The directory that the variable names, or else where the archive is built.
fn archive_directory() -> PathBuf {
    match env::var_os(DIRECTORY_VARIABLE) {
        Some(named) => PathBuf::from(named),
        None => PathBuf::from(variable("CARGO_MANIFEST_DIR")).join(BUILT_IN),
    }
}

/// Has the archive linked, or says which command makes it.
fn link(directory: PathBuf) {
    let archive = directory.join("libremizutogya.a");
    println!("cargo::rerun-if-changed={}", archive.display());
    if !archive.is_file() {
        println!(
            "cargo::error={} is not there: make it with `make target/staticlib/libremizutogya.a` at the root of the repository.",
            archive.display()
        );
        return;
    }
    println!("cargo::rustc-link-search=native={}", directory.display());
    println!("cargo::rustc-link-lib=static=remizutogya");
}
