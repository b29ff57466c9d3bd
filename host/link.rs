//! The build script of the packages that stand on proved archives: links those
//! of the package at hand, which `make library` puts into `build/`.

use std::env;
use std::path::Path;

fn main() {
    let archives: &[&str] = match env!("CARGO_PKG_NAME") {
        "mullirim-board" => &["board", "measure"],
        "mullirim-files" => &["files"],
        other => panic!("{other} stands on no archive"),
    };
    let folder = env::var("MULLIRIM_LIBRARY")
        .unwrap_or_else(|_| format!("{}/../../build", env!("CARGO_MANIFEST_DIR")));
    println!("cargo:rustc-link-search=native={folder}");
    println!("cargo:rerun-if-env-changed=MULLIRIM_LIBRARY");
    for name in archives {
        let archive = Path::new(&folder).join(format!("lib{name}.a"));
        if !archive.is_file() {
            panic!("no lib{name}.a in {folder}: run `make library` first");
        }
        println!("cargo:rustc-link-lib=static={name}");
        println!("cargo:rerun-if-changed={}", archive.display());
    }
}
