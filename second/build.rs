//! Finds the proved library's archive for the program `compare`, which alone needs it (feature `library`).
//! DUGGFRASK_LIB names the directory that has libduggfrask.a; without it, `dist` beside this package is taken.

use std::env;
use std::path::PathBuf;

fn main() {
    println!("cargo::rerun-if-env-changed=DUGGFRASK_LIB");
    if env::var_os("CARGO_FEATURE_LIBRARY").is_none() {
        println!("cargo::rerun-if-changed=build.rs");
        return;
    }
    let dir = match env::var_os("DUGGFRASK_LIB") {
        Some(dir) => PathBuf::from(dir),
        None => PathBuf::from("../dist"),
    };
    let archive = dir.join("libduggfrask.a");
    println!("cargo::rerun-if-changed={}", archive.display());
    match archive.canonicalize() {
        Ok(found) => println!("cargo::rustc-link-arg-bin=compare={}", found.display()),
        Err(_) => println!(
            "cargo::error=there is no proved library at {} (seen from second/): build it first, \
             or set DUGGFRASK_LIB to the directory that has libduggfrask.a",
            archive.display()
        ),
    }
}
