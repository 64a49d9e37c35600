// Compiles plain.c with `cc -O3`.
use std::{env, path::PathBuf, process::Command};

fn main() {
    println!("cargo:rerun-if-changed=plain.c");
    let folder = PathBuf::from(env::var("OUT_DIR").unwrap());
    let (object, library) = (folder.join("plain.o"), folder.join("libplain.a"));
    let compiled = Command::new("cc").args(["-std=c99", "-O3", "-c", "plain.c", "-o"]).arg(&object).status();
    assert!(compiled.unwrap().success());
    let collected = Command::new("ar").arg("crs").arg(&library).arg(&object).status();
    assert!(collected.unwrap().success());
    println!("cargo:rustc-link-search=native={}", folder.display());
    println!("cargo:rustc-link-lib=static=plain");
}
