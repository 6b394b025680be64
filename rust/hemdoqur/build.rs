// Links the archive that `rt lib` makes in crates/exports.
use std::env;
use std::path::{Path, PathBuf};

// The folder of the archive: HEMDOQUR_LIB, else the repository's crates/exports/out.
fn folder() -> PathBuf {
    match env::var_os("HEMDOQUR_LIB") {
        Some(path) => PathBuf::from(path),
        None => Path::new(&env::var_os("CARGO_MANIFEST_DIR").expect("set by cargo")).join("../../crates/exports/out"),
    }
}

fn main() {
    let folder = folder();
    let archive = folder.join("libexports.a");
    println!("cargo:rerun-if-env-changed=HEMDOQUR_LIB");
    println!("cargo:rerun-if-changed={}", archive.display());
    assert!(archive.is_file(), "{} is missing; `rt lib` in crates/exports makes it", archive.display());
    println!("cargo:rustc-link-search=native={}", folder.display());
    println!("cargo:rustc-link-lib=static=exports");
}
