//! Drives the unchanged Rust and the proved library side by side, holds refusals to a plain model of document 01, and
//! prints what was covered. Exits with 1 at a difference, and where a kind was never met.
mod coverage;
mod hold;
mod manager;
mod mutant;
mod probes;
mod store;

use std::panic;
use std::process::ExitCode;

/// The parts that the sown fault, if any, belongs to.
fn parts() -> Result<(), String> {
    if mutant::is_none_but(&mutant::OF_THE_MANAGER) {
        manager::run()?;
    }
    if mutant::is_none_but(&mutant::OF_THE_STORE) {
        store::run()?;
    }
    if mutant::is_none_but(&mutant::OF_THE_HOLD) {
        hold::run()?;
    }
    if mutant::is_none_but(&mutant::OF_THE_PROBES) {
        probes::run()?;
    }
    Ok(())
}

fn main() -> ExitCode {
    mutant::announce();
    panic::set_hook(Box::new(|_| {}));
    let found = parts();
    match found {
        Ok(()) => {
            println!("no difference");
            ExitCode::SUCCESS
        }
        Err(found) => {
            println!("FAILED: {found}");
            ExitCode::FAILURE
        }
    }
}
