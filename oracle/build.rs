//! Finds the given Rust files and writes the module tree that includes them where they lie, unchanged.

use std::path::{Path, PathBuf};
use std::{env, fs};

/// The modules below `vsu`; the files come without a `mod.rs`.
const VSU: [&str; 6] = ["channel", "channel_enum", "core", "sweep_modulate", "traits", "waveform"];

fn main() {
    println!("cargo:rerun-if-env-changed=VSU_SRC");
    println!("cargo:rerun-if-changed=build.rs");
    let here = PathBuf::from(env::var("CARGO_MANIFEST_DIR").unwrap());
    let root = match env::var("VSU_SRC") {
        Ok(path) => PathBuf::from(path),
        Err(_) => here.join("../../shared/docs/src"),
    };
    let source = root.join("virtualfriend/src");

    let mut tree = module(&source, "constants.rs", "constants");
    tree += "#[allow(dead_code, unused)]\npub mod vsu {\n";
    for name in VSU {
        tree += &module(&source, &format!("vsu/{name}.rs"), name);
    }
    tree += "}\n";
    let out = PathBuf::from(env::var("OUT_DIR").unwrap());
    fs::write(out.join("modules.rs"), tree).unwrap();
}

fn module(source: &Path, file: &str, name: &str) -> String {
    let path = source.join(file);
    let path = path.canonicalize().unwrap_or_else(|e| {
        panic!("{}: {e}; VSU_SRC must name the folder that holds virtualfriend/src", path.display())
    });
    println!("cargo:rerun-if-changed={}", path.display());
    format!("#[allow(dead_code)]\n#[path = {:?}]\npub mod {name};\n", path.to_str().expect("the path is not UTF-8"))
}
