//! Links libchecker.a and libload.a from the folder CABLEBIRCH_LIB, or else from target/staticlib of the repository that this crate stands in.

use std::env;
use std::path::PathBuf;

fn main() {
    println!("cargo:rerun-if-env-changed=CABLEBIRCH_LIB");
    let folder = env::var_os("CABLEBIRCH_LIB").map(PathBuf::from).unwrap_or_else(|| {
        let here = env::var_os("CARGO_MANIFEST_DIR").expect("cargo gives the crate's folder");
        PathBuf::from(here).join("../../target/staticlib")
    });
    println!("cargo:rustc-link-search=native={}", folder.display());
    for name in ["checker", "load"] {
        let library = folder.join(format!("lib{}.a", name));
        println!("cargo:rerun-if-changed={}", library.display());
        if !library.is_file() {
            println!("cargo:warning=no {}: `tools/staticlib {}` writes it", library.display(), name);
        }
        println!("cargo:rustc-link-lib=static={}", name);
    }
}
