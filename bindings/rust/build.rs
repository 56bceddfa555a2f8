//! Finds libcapi.a: in the directory that STYLE_DECK_LIB_DIR names, else in the repository's crates/capi/out.
use std::env;
use std::path::PathBuf;

fn main() {
    println!("cargo:rerun-if-env-changed=STYLE_DECK_LIB_DIR");
    let dir = match env::var_os("STYLE_DECK_LIB_DIR") {
        Some(dir) => PathBuf::from(dir),
        None => PathBuf::from(env::var_os("CARGO_MANIFEST_DIR").expect("cargo sets it"))
            .join("../../crates/capi/out"),
    };
    let archive = dir.join("libcapi.a");
    println!("cargo:rerun-if-changed={}", archive.display());
    if !archive.is_file() {
        panic!(
            "{} is not there: run `rt lib` in the repository's crates/capi, or set STYLE_DECK_LIB_DIR",
            archive.display()
        );
    }
    println!("cargo:rustc-link-search=native={}", dir.display());
    println!("cargo:rustc-link-lib=static=capi");
}
