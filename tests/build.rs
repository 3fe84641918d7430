//! Says where the archives of the proved code stand, for the tests that link them, and which are missing, so that these tests
//! can say so. The library and all other tests need no archive.

use std::env;
use std::path::PathBuf;

fn main() {
    let root = PathBuf::from(env::var_os("CARGO_MANIFEST_DIR").expect("cargo sets it"));
    let folder = root.join("../target/staticlib");
    println!("cargo:rustc-link-search=native={}", folder.display());
    println!("cargo:rerun-if-changed=build.rs");
    println!("cargo:rerun-if-changed={}", folder.display());
    for library in ["strand", "capi"] {
        let archive = folder.join(format!("lib{library}.a"));
        println!("cargo:rustc-check-cfg=cfg({library}_missing)");
        if !archive.exists() {
            println!("cargo:rustc-cfg={library}_missing");
        }
    }
}
