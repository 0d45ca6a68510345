//! Links libpoint_store_c.a: from the folder that POINT_STORE_LIB names, else from the repository's
//! target/staticlib, else from where pkg-config finds it installed. Where there is none, nothing is
//! linked, so that `cargo check` and `cargo doc` run without it; a program then does not link.

use std::env;
use std::path::PathBuf;
use std::process::Command;

const ARCHIVE: &str = "libpoint_store_c.a";

fn main() {
    println!("cargo:rerun-if-env-changed=POINT_STORE_LIB");
    println!("cargo:rerun-if-env-changed=PKG_CONFIG");
    println!("cargo:rerun-if-env-changed=PKG_CONFIG_PATH");
    // Cargo runs this in the package's folder, and the linker elsewhere.
    let here = env::current_dir().unwrap();
    let named = env::var_os("POINT_STORE_LIB").map(|folder| here.join(folder));
    let built = here.join("../../target/staticlib");
    println!("cargo:rerun-if-changed={}", built.join(ARCHIVE).display());
    let found = match named {
        Some(folder) => has_archive(folder),
        None => has_archive(built).or_else(installed),
    };
    match found {
        Some(folder) => {
            println!("cargo:rerun-if-changed={}", folder.join(ARCHIVE).display());
            println!("cargo:rustc-link-search=native={}", folder.display());
            println!("cargo:rustc-link-lib=static=point_store_c");
        }
        None => println!(
            "cargo:warning=no {ARCHIVE} of version {}: 'make' at the root of the repository proves and builds \
             it, 'make install' has pkg-config find it, and POINT_STORE_LIB names a folder that holds it",
            env!("CARGO_PKG_VERSION")
        ),
    }
}

fn has_archive(folder: PathBuf) -> Option<PathBuf> {
    folder.join(ARCHIVE).is_file().then_some(folder)
}

/// The folder of an installed archive of this crate's version.
fn installed() -> Option<PathBuf> {
    let program = env::var_os("PKG_CONFIG").unwrap_or("pkg-config".into());
    let version = concat!("--exact-version=", env!("CARGO_PKG_VERSION"));
    let known = Command::new(&program)
        .args([version, "point_store"])
        .status()
        .ok()?;
    if !known.success() {
        return None;
    }
    let answer = Command::new(&program)
        .args(["--variable=libdir", "point_store"])
        .output()
        .ok()?;
    has_archive(PathBuf::from(String::from_utf8(answer.stdout).ok()?.trim()))
}
