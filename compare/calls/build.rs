//! Links the engine's static library: the file that SIF_ENGINE names, or the one that
//! `compare/library` makes.

use std::env;
use std::path::Path;

fn main() {
    println!("cargo:rerun-if-env-changed=SIF_ENGINE");
    let root =
        Path::new(&env::var("CARGO_MANIFEST_DIR").expect("CARGO_MANIFEST_DIR")).join("../..");
    let named = env::var("SIF_ENGINE").unwrap_or("target/staticlib/libengine.a".into());
    let archive = root.join(named).canonicalize().expect("the engine's static library");
    println!("cargo:rerun-if-changed={}", archive.display());
    println!("cargo:rustc-link-arg={}", archive.display());
}
