//! Links the static library into the two programs that call it.

use std::env;
use std::path::PathBuf;

fn main() {
    println!("cargo:rerun-if-env-changed=KOXALTES_LIB_DIR");
    let manifest = PathBuf::from(env::var("CARGO_MANIFEST_DIR").expect("set by cargo"));
    let directory = env::var("KOXALTES_LIB_DIR")
        .map(PathBuf::from)
        .unwrap_or_else(|_| manifest.join("../target/staticlib"));
    let archive = directory.join("libkoxaltes.a");
    println!("cargo:rerun-if-changed={}", archive.display());
    if !archive.exists() {
        println!("cargo:warning=no {}: compare and bench will not link", archive.display());
        return;
    }
    for program in ["compare", "bench"] {
        println!("cargo:rustc-link-arg-bin={program}={}", archive.display());
    }
}
