//! Links the static library `libexfat.a` from the folder that EXFAT_LIB_DIR
//! names, or from dist/ of the repository.

use std::env;
use std::path::PathBuf;
use std::process::exit;

fn main() {
    println!("cargo:rerun-if-env-changed=EXFAT_LIB_DIR");
    println!("cargo:rerun-if-changed=build.rs");
    let folder = match env::var_os("EXFAT_LIB_DIR") {
        Some(folder) => PathBuf::from(folder),
        None => PathBuf::from(env!("CARGO_MANIFEST_DIR")).join("../dist"),
    };
    let library = folder.join("libexfat.a");
    println!("cargo:rerun-if-changed={}", library.display());
    if !library.is_file() {
        println!(
            "cargo:warning=no library at {}: 'make lib' makes it, EXFAT_LIB_DIR names its folder",
            library.display()
        );
        exit(1);
    }
    println!("cargo:rustc-link-search=native={}", folder.display());
    println!("cargo:rustc-link-lib=static=exfat");
}
