//! Takes the original files from the folder that STYLE_DECK_RUST names (the one that holds `crates/`). They are compiled
//! where they stand, but for ir.rs: to its text, unchanged, `ir_more.rs` is added, since only its own module can put a
//! concept into a pool without merging it with an equal one.
use std::{env, fs, path::Path};

fn main() {
    println!("cargo::rerun-if-env-changed=STYLE_DECK_RUST");
    println!("cargo::rerun-if-changed=src/ir_more.rs");
    let root = env::var("STYLE_DECK_RUST").expect("STYLE_DECK_RUST: the folder of the original files");
    let out = env::var("OUT_DIR").unwrap();
    let (out, root) = (Path::new(&out), fs::canonicalize(root).expect("STYLE_DECK_RUST is no folder"));
    let (core, verify) = (root.join("crates/owl-dl-core/src"), root.join("crates/owl-dl-verify/src"));
    let read = |path: &Path| fs::read_to_string(path).unwrap_or_else(|e| panic!("{}: {e}", path.display()));
    let ir = read(&core.join("ir.rs")) + &read(Path::new("src/ir_more.rs"));
    fs::write(out.join("ir.rs"), ir).unwrap();
    let mut mods = String::new();
    let files = [
        ("ir", out.join("ir.rs")),
        ("ontology", core.join("ontology.rs")),
        ("dropped", core.join("dropped.rs")),
        ("verify", verify.join("lib.rs")),
    ];
    for (name, path) in files {
        mods += &format!("#[path = {path:?}]\npub mod {name};\n");
    }
    fs::write(out.join("files.rs"), mods).unwrap();
    for folder in [&core, &verify] {
        println!("cargo::rerun-if-changed={}", folder.display());
    }
}
