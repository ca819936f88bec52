//! Links the proved static library, which `bash clients/staticlib.sh capi` writes.
use std::path::Path;

fn main() {
    let directory = Path::new(env!("CARGO_MANIFEST_DIR")).join("../../target/staticlib");
    let archive = directory.join("libcapi.a");
    println!("cargo::rerun-if-changed={}", archive.display());
    if !archive.is_file() {
        println!(
            "cargo::error={} is missing: run `bash clients/staticlib.sh capi` in the repository's root",
            archive.display()
        );
        return;
    }
    println!("cargo::rustc-link-search=native={}", directory.display());
    println!("cargo::rustc-link-lib=static=capi");
}
