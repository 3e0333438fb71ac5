//! Links the library that tools/library makes.

use std::path::{Path, PathBuf};
use std::{env, process};

/// The folder that PHASTR_LIB names, else where tools/library puts the library.
fn folder() -> PathBuf {
    println!("cargo:rerun-if-env-changed=PHASTR_LIB");
    if let Some(named) = env::var_os("PHASTR_LIB") {
        return PathBuf::from(named);
    }
    Path::new(&env::var_os("CARGO_MANIFEST_DIR").unwrap()).join("../../target/staticlib")
}

fn main() {
    println!("cargo:rerun-if-changed=build.rs");
    let folder = folder();
    let library = folder.join("libphastr.a");
    println!("cargo:rerun-if-changed={}", library.display());
    if !library.is_file() {
        eprintln!(
            "phastr: no {}. Run tools/library, or set PHASTR_LIB to the folder that holds libphastr.a",
            library.display()
        );
        process::exit(1);
    }
    println!("cargo:rustc-link-search=native={}", folder.display());
    println!("cargo:rustc-link-lib=static=phastr");
}
