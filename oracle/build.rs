//! Includes the Rust's own files, unchanged, from the folder that ENVELOPE_SRC names. oracle/sources
//! tests them first.
use std::path::Path;

fn main() {
    println!("cargo:rerun-if-env-changed=ENVELOPE_SRC");
    let folder = std::env::var("ENVELOPE_SRC").expect("ENVELOPE_SRC: run oracle/make");
    let mut modules = String::new();
    for name in ["curve", "envelope"] {
        let path = Path::new(&folder).join(name).with_extension("rs");
        println!("cargo:rerun-if-changed={}", path.display());
        modules += &format!("#[path = {path:?}]\npub mod {name};\n");
    }
    let out = std::env::var("OUT_DIR").unwrap();
    std::fs::write(Path::new(&out).join("modules.rs"), modules).unwrap();
}
