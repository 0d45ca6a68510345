//! Compiles the C loop that the check is timed against.
use std::env;
use std::path::PathBuf;
use std::process::Command;

fn run(program: &str, arguments: &[&str]) {
    let done = Command::new(program).args(arguments).status();
    assert!(done.is_ok_and(|status| status.success()), "{program} {arguments:?}");
}

fn main() {
    println!("cargo:rerun-if-changed=src/tables.c");
    let folder = PathBuf::from(env::var_os("OUT_DIR").unwrap());
    let (object, archive) = (folder.join("tables.o"), folder.join("libtables.a"));
    let (object, archive) = (object.to_str().unwrap(), archive.to_str().unwrap());
    run("cc", &["-O3", "-c", "src/tables.c", "-o", object]);
    run("ar", &["rcs", archive, object]);
    println!("cargo:rustc-link-search=native={}", folder.display());
    println!("cargo:rustc-link-lib=static=tables");
}
