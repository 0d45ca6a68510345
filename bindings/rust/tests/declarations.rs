//! The hand-written declarations of the library's functions, held to the functions that it exports;
//! and every copy of the version to the file VERSION.

use std::process::Command;

fn passes(script: &str) {
    let path = format!("{}/../../include/{script}", env!("CARGO_MANIFEST_DIR"));
    let output = Command::new(&path)
        .output()
        .unwrap_or_else(|why| panic!("{path}: {why}"));
    let said = String::from_utf8_lossy(&output.stderr);
    assert!(output.status.success(), "{said}");
}

#[test]
fn declarations_are_those_of_the_library() {
    passes("check_declarations");
}

#[test]
fn versions_agree() {
    passes("check_version");
}
