//! Compiles limits.c, and hears from the package `original` whether the Rust sources were
//! found.

use std::env;
use std::path::PathBuf;
use std::process::Command;

fn run(command: &mut Command) {
    let status = command.status().expect("the command starts");
    assert!(status.success(), "{command:?} failed");
}

/// The first line that a command prints, to name its version.
fn version(command: &str) -> String {
    let output = Command::new(command).arg("--version").output();
    let text = output.map(|output| String::from_utf8_lossy(&output.stdout).into_owned());
    text.unwrap_or_default()
        .lines()
        .next()
        .unwrap_or("unknown")
        .to_string()
}

fn main() {
    println!("cargo:rerun-if-changed=build.rs");
    println!("cargo:rerun-if-changed=limits.c");
    println!("cargo:rerun-if-changed=bare_walk.h");
    let out = PathBuf::from(env::var_os("OUT_DIR").expect("set by cargo"));
    let (object, archive) = (out.join("limits.o"), out.join("liblimits.a"));
    run(Command::new("gcc")
        .args([
            "-std=c11", "-O2", "-Wall", "-Wextra", "-Werror", "-c", "limits.c", "-o",
        ])
        .arg(&object));
    let _ = std::fs::remove_file(&archive);
    run(Command::new("ar").arg("rcs").arg(&archive).arg(&object));
    println!("cargo:rustc-link-search=native={}", out.display());
    println!("cargo:rustc-link-lib=static=limits");

    println!("cargo:rustc-env=GCC_VERSION={}", version("gcc"));
    println!(
        "cargo:rustc-env=RUSTC_VERSION={}",
        version(&env::var("RUSTC").expect("set by cargo"))
    );
    if env::var_os("DEP_ORIGINAL_EXFAT_FOUND").is_some() {
        println!("cargo:rustc-cfg=rust_sources");
    }
}
