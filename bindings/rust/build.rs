//! Links libpoolsheet.a, out of the folder that POOLSHEET_LIB names, seen from the repository root, or else of target/staticlib there.

use std::env;
use std::path::PathBuf;

fn main() {
    println!("cargo::rerun-if-changed=build.rs");
    println!("cargo::rerun-if-env-changed=POOLSHEET_LIB");
    let root = PathBuf::from(env::var_os("CARGO_MANIFEST_DIR").unwrap()).join("../..");
    let folder = root.join(env::var_os("POOLSHEET_LIB").unwrap_or_else(|| "target/staticlib".into()));
    let archive = folder.join("libpoolsheet.a");
    println!("cargo::rerun-if-changed={}", archive.display());
    if !archive.is_file() {
        panic!("{} is missing: run `sh bindings/library.sh`, or name its folder in POOLSHEET_LIB", archive.display());
    }
    println!("cargo::rustc-link-search=native={}", folder.display());
    println!("cargo::rustc-link-lib=static=poolsheet");
}
