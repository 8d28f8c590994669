//! Lays out the original's files in OUT_DIR, byte for byte as they are, beside
//! the shims of those that are missing. The files name each other by
//! `#[path = "..."]` relative to their own folder, so they must share one.

use std::env;
use std::fs;
use std::path::{Path, PathBuf};

/// The files of the original that are built.
const GIVEN: [&str; 11] = [
    "boot.rs",
    "directory.rs",
    "metadata.rs",
    "primitives.rs",
    "timestamp.rs",
    "volume.rs",
    "write.rs",
    "write_alloc.rs",
    "write_dir.rs",
    "write_file.rs",
    "write_remove.rs",
];

/// The modules at the root of the crate. The other files are named by these.
const ROOT_MODULES: [&str; 9] = [
    "boot",
    "device",
    "directory",
    "file",
    "metadata",
    "primitives",
    "timestamp",
    "volume",
    "write",
];

/// `EXFAT_RUST_SRC`, or `shared/docs/src` beside the repository; in either,
/// the files may lie in a folder `src`.
fn source_folder() -> Option<PathBuf> {
    let named = env::var_os("EXFAT_RUST_SRC").map(PathBuf::from);
    let beside = Path::new(&env::var_os("CARGO_MANIFEST_DIR")?).join("../../../shared/docs/src");
    let folder = named.unwrap_or(beside);
    [folder.join("src"), folder]
        .into_iter()
        .find(|folder| GIVEN.iter().all(|name| folder.join(name).is_file()))
}

/// Copies the bytes only, not the permissions, so that the next build can
/// write over them.
fn copy(from: &Path, to: &Path) {
    let bytes = fs::read(from).expect("a source file can be read");
    fs::write(to, bytes).expect("OUT_DIR can be written");
    println!("cargo:rerun-if-changed={}", from.display());
}

fn lay_out(given: &Path, shims: &Path, out: &Path) {
    let tree = out.join("tree");
    fs::create_dir_all(&tree).expect("OUT_DIR can be written");
    for name in GIVEN {
        copy(&given.join(name), &tree.join(name));
    }
    for entry in fs::read_dir(shims).expect("the folder of shims is there") {
        let path = entry.expect("a shim can be listed").path();
        copy(
            &path,
            &tree.join(path.file_name().expect("a file has a name")),
        );
    }
    let mut modules = String::new();
    for name in ROOT_MODULES {
        let path = tree.join(format!("{name}.rs"));
        modules += &format!("#[path = {path:?}]\npub mod {name};\n");
    }
    fs::write(out.join("modules.rs"), modules).expect("OUT_DIR can be written");
}

fn main() {
    println!("cargo:rerun-if-env-changed=EXFAT_RUST_SRC");
    println!("cargo:rerun-if-changed=build.rs");
    println!("cargo:rerun-if-changed=shims");
    let out = PathBuf::from(env::var_os("OUT_DIR").expect("set by cargo"));
    match source_folder() {
        Some(given) => {
            lay_out(&given, Path::new("shims"), &out);
            println!("cargo:rustc-cfg=rust_sources");
            // Handed to the build script of the package that depends on this.
            println!("cargo:found=1");
        }
        None => println!(
            "cargo:warning=RUST SOURCES NOT FOUND: set EXFAT_RUST_SRC to the folder that holds write.rs; the oracle is built without them and compares nothing"
        ),
    }
}
