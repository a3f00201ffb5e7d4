//! Links the static library. Where it is not there yet, `bindings/library` proves and writes it.

use std::env;
use std::path::Path;
use std::process::{Command, Stdio};

fn main() {
    let here = env::var("CARGO_MANIFEST_DIR").unwrap();
    let top = Path::new(&here).join("../..");
    let folder = top.join("target/staticlib");
    let library = folder.join("libthermal.a");
    if !library.exists() {
        let mut make = Command::new(top.join("bindings/library"));
        let status = make.stdout(Stdio::null()).status();
        let proved = status.expect("`bindings/library` is run").success();
        assert!(proved, "`bindings/library` proves and writes the library");
    }
    println!("cargo:rerun-if-changed={}", library.display());
    println!("cargo:rustc-link-search=native={}", folder.display());
    println!("cargo:rustc-link-lib=static=thermal");
}
