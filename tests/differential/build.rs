//! Links the static library: crates/capi/out/libcapi.a, which `rt lib` in crates/capi makes, or the one in the
//! folder that STYLE_DECK_LIB_DIR names.
use std::{env, path::Path};

fn main() {
    println!("cargo::rerun-if-env-changed=STYLE_DECK_LIB_DIR");
    let here = env::var("CARGO_MANIFEST_DIR").unwrap();
    let usual = Path::new(&here).join("../../crates/capi/out");
    let folder = env::var("STYLE_DECK_LIB_DIR").unwrap_or(usual.display().to_string());
    println!("cargo::rerun-if-changed={folder}/libcapi.a");
    println!("cargo::rustc-link-search=native={folder}");
    println!("cargo::rustc-link-lib=static=capi");
}
