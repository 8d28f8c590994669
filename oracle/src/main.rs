//! Compares the proved library with the original Rust, call by call. See
//! README.md.

use std::process::ExitCode;

#[cfg(rust_sources)]
mod boundary;
#[cfg(rust_sources)]
mod calls;
#[cfg(rust_sources)]
mod cases;
#[cfg(rust_sources)]
mod command;
#[cfg(rust_sources)]
mod compare;
#[cfg(rust_sources)]
mod differences;
#[cfg(rust_sources)]
mod entries;
#[cfg(rust_sources)]
mod maker;
#[cfg(rust_sources)]
mod reads;
#[cfg(rust_sources)]
mod rng;
#[cfg(rust_sources)]
mod sample;
#[cfg(rust_sources)]
mod sides;
#[cfg(rust_sources)]
mod subject;
#[cfg(rust_sources)]
mod view;

#[cfg(rust_sources)]
fn main() -> ExitCode {
    command::main()
}

/// Exit status 3 is for this alone.
#[cfg(not(rust_sources))]
fn main() -> ExitCode {
    eprintln!("Rust sources not found: the oracle was built without them and compares nothing");
    ExitCode::from(3)
}
