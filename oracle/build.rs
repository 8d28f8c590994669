//! Hears from the package `original` whether the Rust sources were found.

use std::env;

fn main() {
    println!("cargo:rerun-if-changed=build.rs");
    if env::var_os("DEP_ORIGINAL_EXFAT_FOUND").is_some() {
        println!("cargo:rustc-cfg=rust_sources");
    }
}
