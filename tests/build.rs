// Links libcapi.a and libline_capi.a, each from where `rt lib` in its crate's folder writes it.
use std::{env, path::PathBuf};

fn main() {
    let crates = PathBuf::from(env::var("CARGO_MANIFEST_DIR").unwrap()).join("../crates");
    for library in ["capi", "line_capi"] {
        let folder = crates.join(library).join("out");
        println!("cargo:rerun-if-changed={}", folder.join(format!("lib{library}.a")).display());
        println!("cargo:rustc-link-search=native={}", folder.display());
        println!("cargo:rustc-link-lib=static={library}");
    }
}
