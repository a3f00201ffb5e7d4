//! Puts the original's files, unchanged, where cargo builds a crate of them. Used by the build
//! scripts of both crates.

use std::env;
use std::fs;
use std::path::{Path, PathBuf};

/// Writes a file of the folder that cargo gives the build script.
pub fn write(name: &str, text: &str) {
    let path = out(name);
    fs::create_dir_all(path.parent().unwrap()).unwrap();
    fs::write(path, text).unwrap();
}

/// Copies a file of one of the original's crates, and gives the item that makes it a module.
pub fn module(krate: &str, file: &str) -> String {
    println!("cargo:rerun-if-env-changed=THERMAL_ORIGINAL");
    let root = env::var("THERMAL_ORIGINAL").expect("THERMAL_ORIGINAL names the original's folder");
    let from = Path::new(&root).join(krate).join(file);
    println!("cargo:rerun-if-changed={}", from.display());
    let text = fs::read_to_string(&from).unwrap_or_else(|e| panic!("{}: {e}", from.display()));
    write(file, &text);
    let name = from.file_stem().unwrap().to_str().unwrap();
    format!("#[path = {:?}]\npub mod {name};\n", out(file))
}

fn out(name: &str) -> PathBuf {
    Path::new(&env::var("OUT_DIR").unwrap()).join(name)
}
