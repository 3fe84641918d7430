//! Links the proved archives: those of `host/build strand capi`, or the folder that ARCHIVES names.
fn main() {
    let here = std::env::var("CARGO_MANIFEST_DIR").unwrap();
    let folder = std::env::var("ARCHIVES").unwrap_or(format!("{here}/../target/staticlib"));
    println!("cargo:rerun-if-env-changed=ARCHIVES");
    println!("cargo:rustc-link-search=native={folder}");
    for name in ["strand", "capi"] {
        println!("cargo:rerun-if-changed={folder}/lib{name}.a");
        println!("cargo:rustc-link-lib=static={name}");
    }
}
