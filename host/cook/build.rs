//! Links libhost.a from COOK_LIB_DIR, or from where `rt lib` leaves it.

use std::env;
use std::path::PathBuf;

fn library_directory() -> PathBuf {
    if let Some(directory) = env::var_os("COOK_LIB_DIR") {
        return PathBuf::from(directory);
    }
    let here = env::var_os("CARGO_MANIFEST_DIR").expect("cargo sets CARGO_MANIFEST_DIR");
    PathBuf::from(here).join("../../crates/host/out")
}

fn main() {
    let directory = library_directory();
    let library = directory.join("libhost.a");
    println!("cargo:rerun-if-env-changed=COOK_LIB_DIR");
    println!("cargo:rerun-if-changed=build.rs");
    println!("cargo:rerun-if-changed={}", library.display());
    if !library.is_file() {
        eprintln!(
            "{} is missing: run `rt lib` in crates/host or set COOK_LIB_DIR",
            library.display()
        );
        std::process::exit(1);
    }
    println!("cargo:rustc-link-search=native={}", directory.display());
    println!("cargo:rustc-link-lib=static=host");
}
