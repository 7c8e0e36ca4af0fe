//! Links the static library: target/staticlib of the repository, or the folder that KOXALTES_LIB_DIR names.

use std::env;
use std::path::PathBuf;

fn main() {
    println!("cargo:rerun-if-env-changed=KOXALTES_LIB_DIR");
    let manifest = PathBuf::from(env::var("CARGO_MANIFEST_DIR").expect("set by cargo"));
    let folder = env::var("KOXALTES_LIB_DIR")
        .map(PathBuf::from)
        .unwrap_or_else(|_| manifest.join("../../target/staticlib"));
    println!("cargo:rerun-if-changed={}", folder.join("libkoxaltes.a").display());
    println!("cargo:rustc-link-search=native={}", folder.display());
    println!("cargo:rustc-link-lib=static=koxaltes");
}
