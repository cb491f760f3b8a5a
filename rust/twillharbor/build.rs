//! Links the proved static library, which `./staticlib` writes.

use std::env;
use std::path::PathBuf;

fn main() {
    println!("cargo::rerun-if-env-changed=TWILLHARBOR_LIB_DIR");
    let dir = match env::var_os("TWILLHARBOR_LIB_DIR") {
        Some(dir) => PathBuf::from(dir),
        None => PathBuf::from(env!("CARGO_MANIFEST_DIR")).join("../../target/staticlib"),
    };
    let archive = dir.join("libtwillharbor.a");
    println!("cargo::rerun-if-changed={}", archive.display());
    if !archive.is_file() {
        println!(
            "cargo::error=no {}: run `./staticlib` first, or set TWILLHARBOR_LIB_DIR",
            archive.display()
        );
        return;
    }
    let dir = dir.canonicalize().expect("the folder holds the archive");
    println!("cargo::rustc-link-search=native={}", dir.display());
    println!("cargo::rustc-link-lib=static=twillharbor");
    // For the build scripts of packages that link a further archive from there.
    println!("cargo::metadata=lib_dir={}", dir.display());
}
