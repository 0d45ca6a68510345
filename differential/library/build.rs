//! Links the static library that `tools/build_library` writes.
use std::env;
use std::path::PathBuf;

fn main() {
    let folder = PathBuf::from(env::var_os("CARGO_MANIFEST_DIR").unwrap()).join("../../target/staticlib");
    println!("cargo:rerun-if-changed={}", folder.join("libpoint_store_c.a").display());
    println!("cargo:rustc-link-search=native={}", folder.display());
    println!("cargo:rustc-link-lib=static=point_store_c");
}
