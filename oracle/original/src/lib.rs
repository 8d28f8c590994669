//! The original Rust. Its files are built unchanged; see build.rs. Here stand
//! the error type that they name by `crate::Error`, and what the oracle uses.

#![allow(dead_code, unused_imports)]

#[cfg(rust_sources)]
mod driver;

#[cfg(rust_sources)]
include!(concat!(env!("OUT_DIR"), "/modules.rs"));

#[cfg(rust_sources)]
pub use driver::{clock_is_ours, set_clock, Answer, Device, Mount, Opened, Record, Stamp};

/// The error type of the original. Which cases there are is read from the
/// places that make them.
#[derive(Clone, Debug, PartialEq, Eq)]
pub enum Error {
    Device(fs_core::Error),
    Invalid(&'static str),
    Unsupported(&'static str),
    Bounds,
    NoSpace,
    NotFound,
    NotDirectory,
    IsDirectory,
    NotEmpty,
    Exists,
}

pub type Result<Value> = std::result::Result<Value, Error>;

impl From<fs_core::Error> for Error {
    fn from(error: fs_core::Error) -> Self {
        Self::Device(error)
    }
}
