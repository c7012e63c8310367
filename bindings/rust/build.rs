//! Finds the library: in the folder that DUGGFRASK_LIB names, by pkg-config, or in `dist`, where ./build makes it.

use std::env;
use std::path::{Path, PathBuf};
use std::process::Command;

fn main() {
    println!("cargo:rerun-if-env-changed=DUGGFRASK_LIB");
    println!("cargo:rerun-if-env-changed=PKG_CONFIG_PATH");
    println!("cargo:rerun-if-changed=build.rs");
    if let Some(folder) = env::var_os("DUGGFRASK_LIB") {
        return archive(Path::new(&folder));
    }
    if by_pkg_config() {
        return;
    }
    let here = PathBuf::from(env::var_os("CARGO_MANIFEST_DIR").unwrap_or_default());
    archive(&here.join("../../dist"));
}

/// The archive in a folder: what is linked with it needs no library at run time.
fn archive(folder: &Path) {
    let file = folder.join("libduggfrask.a");
    println!("cargo:rerun-if-changed={}", file.display());
    match folder.canonicalize() {
        Ok(found) if file.is_file() => {
            println!("cargo:rustc-link-search=native={}", found.display());
            println!("cargo:rustc-link-lib=static=duggfrask");
        }
        _ => {
            eprintln!("duggfrask: there is no libduggfrask.a in {}", folder.display());
            eprintln!("duggfrask: install the package duggfrask, run ./build, or set DUGGFRASK_LIB to the folder that has it");
            std::process::exit(1);
        }
    }
}

/// Whether pkg-config knows the library; then it is linked as it says.
fn by_pkg_config() -> bool {
    let found = match Command::new("pkg-config").args(["--libs", "duggfrask"]).output() {
        Ok(found) if found.status.success() => found,
        _ => return false,
    };
    let words = String::from_utf8_lossy(&found.stdout).into_owned();
    for word in words.split_whitespace() {
        if let Some(folder) = word.strip_prefix("-L") {
            println!("cargo:rustc-link-search=native={folder}");
        } else if let Some(library) = word.strip_prefix("-l") {
            println!("cargo:rustc-link-lib={library}");
        }
    }
    true
}
