//! Finds the proved static library, `libabi.a`.

use std::env;
use std::path::{Path, PathBuf};

const PLACE: &str = "QUADRILHEL_LIB_DIR";

fn main() {
    println!("cargo::rerun-if-env-changed={PLACE}");
    println!("cargo::rerun-if-changed=build.rs");
    let place = library_place();
    let library = place.join("libabi.a");
    println!("cargo::rerun-if-changed={}", library.display());
    if library.is_file() {
        println!("cargo::rustc-link-search=native={}", place.display());
        println!("cargo::rustc-link-lib=static=abi");
    } else {
        println!("cargo::error={}", what_to_do(&library));
    }
}

/// What the caller names, or where `rt lib` puts the library.
fn library_place() -> PathBuf {
    match env::var_os(PLACE) {
        Some(named) => PathBuf::from(named),
        None => {
            let manifest = env::var_os("CARGO_MANIFEST_DIR").unwrap_or_default();
            Path::new(&manifest).join("../../crates/abi/out")
        }
    }
}

fn what_to_do(library: &Path) -> String {
    format!(
        "the proved library {} is not there: run `rt lib` in the repository's crates/abi, \
         or set {PLACE} to the directory that holds libabi.a",
        library.display()
    )
}
