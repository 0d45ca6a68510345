//! Tells the crate where the Rust's files stand: in the folder that RUST_SOURCES names, else beside the repository.
use std::env;
use std::path::PathBuf;

fn main() {
    println!("cargo:rerun-if-env-changed=RUST_SOURCES");
    let folder = match env::var_os("RUST_SOURCES") {
        Some(named) => PathBuf::from(named),
        None => PathBuf::from(env::var_os("CARGO_MANIFEST_DIR").unwrap()).join("../../../shared/docs/src"),
    };
    let sources = folder.join("crates/rcflib/src");
    let sources = sources.canonicalize().unwrap_or_else(|e| {
        panic!(
            "the Rust's files are not at {}: {e}; set RUST_SOURCES",
            sources.display()
        )
    });
    println!("cargo:rerun-if-changed={}", sources.display());
    println!("cargo:rustc-env=RCFLIB={}", sources.display());
}
