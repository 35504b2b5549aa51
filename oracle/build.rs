//! With the feature `proved`: links the proved verifier, the static library that `./staticlib` of the repository writes.

use std::env;
use std::path::PathBuf;

/// The library's folder: DELUNGKAW_LIB, or target/staticlib of the repository.
fn folder() -> PathBuf {
    let usual = || PathBuf::from(env!("CARGO_MANIFEST_DIR")).join("../target/staticlib");
    env::var_os("DELUNGKAW_LIB").map_or_else(usual, PathBuf::from)
}

fn main() {
    println!("cargo::rerun-if-changed=build.rs");
    println!("cargo::rerun-if-env-changed=DELUNGKAW_LIB");
    if env::var_os("CARGO_FEATURE_PROVED").is_none() {
        return;
    }
    let library = folder().join("libverifier.a");
    println!("cargo::rerun-if-changed={}", library.display());
    println!("cargo::rustc-link-search=native={}", folder().display());
    println!("cargo::rustc-link-lib=static=verifier");
    if !library.is_file() {
        let library = library.display();
        println!("cargo::error={library} is missing: run `./staticlib`, or name its folder in DELUNGKAW_LIB");
    }
}
