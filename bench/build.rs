//! Links the engine's static library (SIF_ENGINE, or the one that `install/build engine` makes) and
//! the run calls by hand, compiled by `bench/run`.

use std::env;
use std::path::Path;

fn main() {
    println!("cargo:rerun-if-env-changed=SIF_ENGINE");
    let root = Path::new(&env::var("CARGO_MANIFEST_DIR").expect("CARGO_MANIFEST_DIR")).join("..");
    let engine = env::var("SIF_ENGINE").unwrap_or("target/staticlib/libengine.a".into());
    for part in [&engine[..], "target/bench/switch.o", "target/bench/threaded.o"] {
        let path = root.join(part).canonicalize().unwrap_or_else(|e| panic!("{part}: {e}"));
        println!("cargo:rerun-if-changed={}", path.display());
        println!("cargo:rustc-link-arg={}", path.display());
    }
}
