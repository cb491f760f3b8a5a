//! Links what is exported for runs alone: `./staticlib` writes it beside libtwillharbor.a.

use std::env;
use std::path::Path;

fn main() {
    let dir = env::var("DEP_TWILLHARBOR_LIB_DIR")
        .expect("the package twillharbor says where it links from");
    for name in ["run_float_c", "run_grid_c", "run_caches_c"] {
        let archive = Path::new(&dir).join(format!("lib{name}.a"));
        println!("cargo::rerun-if-changed={}", archive.display());
        if !archive.is_file() {
            println!("cargo::error=no {}: run `./staticlib {name}` first", archive.display());
        }
        println!("cargo::rustc-link-lib=static={name}");
    }
    println!("cargo::rustc-link-search=native={dir}");
}
