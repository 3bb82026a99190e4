//! Writes the module list of the crate's files: each is compiled unchanged from the folder named by MARKDOWN_SRC.

use std::env;
use std::fmt::Write;
use std::fs;
use std::path::{Path, PathBuf};

/// Default folder, seen from the repository root.
const DEFAULT: &str = "../shared/docs/src";

/// Modules at the crate root.
const ROOT: [&str; 5] = ["event", "parser", "resolve", "subtokenize", "tokenizer"];
/// Modules below `construct`.
const CONSTRUCT: [&str; 3] = ["gfm_table", "label_end", "partial_space_or_tab"];
/// Modules below `util`.
const UTIL: [&str; 5] = ["char", "constant", "edit_map", "infer", "skip"];

fn main() {
    println!("cargo::rerun-if-changed=build.rs");
    println!("cargo::rerun-if-env-changed=MARKDOWN_SRC");
    // The crate's files name a feature that this package doesn't have.
    println!("cargo::rustc-check-cfg=cfg(feature, values(\"log\"))");

    let manifest = PathBuf::from(env::var("CARGO_MANIFEST_DIR").unwrap());
    let named = env::var("MARKDOWN_SRC").unwrap_or_else(|_| DEFAULT.to_string());
    let source = manifest.parent().unwrap().join(named).join("src");
    let out = PathBuf::from(env::var("OUT_DIR").unwrap());

    write_list(&out.join("given_root.rs"), &source, &ROOT);
    write_list(&out.join("given_construct.rs"), &source.join("construct"), &CONSTRUCT);
    write_list(&out.join("given_util.rs"), &source.join("util"), &UTIL);
}

/// Writes one `#[path] pub mod` item a file.
fn write_list(list: &Path, folder: &Path, modules: &[&str]) {
    let mut text = String::new();
    for module in modules {
        let file = folder.join(format!("{module}.rs"));
        let file = file.canonicalize().unwrap_or_else(|error| {
            panic!("{}: {error}; MARKDOWN_SRC names the folder that holds src/tokenizer.rs", file.display())
        });
        println!("cargo::rerun-if-changed={}", file.display());
        writeln!(text, "#[allow(dead_code, unused, clippy::all)]\n#[path = {file:?}]\npub mod {module};").unwrap();
    }
    fs::write(list, text).unwrap();
}
