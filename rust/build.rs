//! Links the static library `libbanavoge.a`.
//!
//! It is looked for in `../target/staticlib`, seen from this crate, or in the
//! directory that the environment variable `BANAVOGE_LIB_DIR` names.

use std::env;
use std::path::{Path, PathBuf};

fn main() {
    let directory = library_directory();
    let library = directory.join("libbanavoge.a");
    if !library.exists() {
        println!(
            "cargo:warning={} does not exist; build it first or set BANAVOGE_LIB_DIR",
            library.display()
        );
    }
    println!("cargo:rustc-link-search=native={}", directory.display());
    println!("cargo:rustc-link-lib=static=banavoge");
    println!("cargo:rerun-if-changed={}", library.display());
    println!("cargo:rerun-if-changed=build.rs");
    println!("cargo:rerun-if-env-changed=BANAVOGE_LIB_DIR");
}

fn library_directory() -> PathBuf {
    if let Some(directory) = env::var_os("BANAVOGE_LIB_DIR") {
        return PathBuf::from(directory);
    }
    let crate_directory = env::var_os("CARGO_MANIFEST_DIR").expect("cargo sets this variable");
    Path::new(&crate_directory).join("../target/staticlib")
}
