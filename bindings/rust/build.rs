//! Finds `libexports.a`, in `RULES_LIB_DIR` or else in `target/staticlib` of the repository.

use std::path::{Path, PathBuf};
use std::{env, process};

/// A relative `RULES_LIB_DIR` is relative to this crate.
fn library_dir() -> PathBuf {
    let dir = env::var_os("RULES_LIB_DIR").unwrap_or("../../target/staticlib".into());
    Path::new(env!("CARGO_MANIFEST_DIR")).join(dir)
}

fn main() {
    let dir = library_dir();
    let library = dir.join("libexports.a");
    println!("cargo:rerun-if-changed=build.rs");
    println!("cargo:rerun-if-env-changed=RULES_LIB_DIR");
    println!("cargo:rerun-if-changed={}", library.display());
    if !library.is_file() {
        eprintln!(
            "{} is not there: run `tools/build exports` in the repository, \
             or set RULES_LIB_DIR to the directory that has libexports.a",
            library.display()
        );
        process::exit(1);
    }
    println!("cargo:rustc-link-search=native={}", dir.display());
    println!("cargo:rustc-link-lib=static=exports");
}
