//! Writes calls of the Rust and its answers under a folder: `manager_replay/data/manager_calls` and `replay/data/store_calls`.
mod chosen;
mod manager;
mod store;

use std::fs;
use std::path::Path;

fn write(path: &Path, lines: &str) {
    fs::create_dir_all(path.parent().expect("a file in a folder")).expect("the folder");
    fs::write(path, lines).unwrap_or_else(|e| panic!("{}: {e}", path.display()));
}

fn main() {
    let folder = std::env::args().nth(1).expect("the folder to write to");
    let folder = Path::new(&folder);
    let manager = manager::recorded();
    write(&folder.join("manager_replay/data/manager_calls"), &manager);
    let store = store::recorded();
    write(&folder.join("replay/data/store_calls"), &store);
    println!(
        "{} calls of the manager recorded, {} of the store",
        manager.lines().count(),
        store.lines().count()
    );
}
