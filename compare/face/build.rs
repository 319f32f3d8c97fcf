//! Links the proved code, which `.ci/staticlib` builds.

use std::env;
use std::path::Path;

fn main() {
    println!("cargo::rerun-if-changed=build.rs");
    if env::var_os("CARGO_FEATURE_PROVED").is_none() {
        return;
    }
    let package = env::var("CARGO_MANIFEST_DIR").expect("cargo names the package's folder");
    let folder = Path::new(&package).join("../../target/staticlib");
    println!("cargo::rustc-link-search=native={}", folder.display());
    for name in ["kospelna", "kospelna_summary"] {
        let library = folder.join(format!("lib{name}.a"));
        println!("cargo::rerun-if-changed={}", library.display());
        if !library.exists() {
            println!("cargo::error=target/staticlib/lib{name}.a is missing: run `.ci/staticlib` in the");
            println!("cargo::error=repository first (or, to go without the proved code, cargo with --no-default-features)");
            return;
        }
        println!("cargo::rustc-link-lib=static={name}");
    }
}
