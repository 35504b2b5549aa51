//! Says where the proved library is: `./staticlib` writes it to target/staticlib of the repository.

use std::path::Path;

fn main() {
    let folder = Path::new(env!("CARGO_MANIFEST_DIR")).join("../../target/staticlib");
    let library = folder.join("libverifier.a");
    println!("cargo::rerun-if-changed={}", library.display());
    println!("cargo::rustc-link-search=native={}", folder.display());
    if !library.is_file() {
        println!("cargo::error={} is missing: run `./staticlib`", library.display());
    }
}
