//! Links the proved library, wherever `host/library` (or whoever sets
//! `EMS_LIB_DIR`) has put it.

use std::{env, path::PathBuf, process::exit};

fn main() {
    println!("cargo:rerun-if-env-changed=EMS_LIB_DIR");
    let dir = env::var_os("EMS_LIB_DIR")
        .filter(|dir| !dir.is_empty())
        .map_or_else(in_the_repository, PathBuf::from);
    let library = dir.join("libflight.a");
    println!("cargo:rerun-if-changed={}", library.display());
    if !library.is_file() {
        eprintln!("{} isn't there.", library.display());
        eprintln!("Build it with `host/library` in the repository's top folder,");
        eprintln!("or set EMS_LIB_DIR to the folder that holds libflight.a.");
        exit(1);
    }
    println!("cargo:rustc-link-search=native={}", dir.display());
    println!("cargo:rustc-link-lib=static=flight");
    // For the tests that link it into C.
    println!("cargo:rustc-env=EMS_FLIGHT_DIR={}", dir.display());
}

/// `target/staticlib` of the repository, two folders above this package.
fn in_the_repository() -> PathBuf {
    let package = PathBuf::from(env::var_os("CARGO_MANIFEST_DIR").unwrap_or_default());
    package.join("../../target/staticlib")
}
