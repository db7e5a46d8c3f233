//! Links the engine's static library: the one that `SIF_ENGINE` names (absolute, or relative to the
//! repository's root), else the one that `install/build engine` makes there.

use std::env;
use std::fs;
use std::path::{Path, PathBuf};
use std::process::{Command, ExitCode};

fn main() -> ExitCode {
    match link() {
        Ok(()) => ExitCode::SUCCESS,
        Err(fault) => {
            eprintln!("sif: {fault}");
            ExitCode::FAILURE
        }
    }
}

fn link() -> Result<(), String> {
    let root = Path::new(&variable("CARGO_MANIFEST_DIR")?).join("..");
    println!("cargo:rerun-if-env-changed=SIF_ENGINE");
    println!("cargo:rerun-if-changed=build.rs");
    let archive = match env::var_os("SIF_ENGINE") {
        Some(path) if !path.is_empty() => given(&root.join(path)),
        _ => built(&root)?,
    };
    let folder = PathBuf::from(variable("OUT_DIR")?);
    let copy = folder.join("libsif_engine.a");
    fs::copy(&archive, &copy)
        .map_err(|e| format!("the engine's static library {}: {e}", archive.display()))?;
    println!("cargo:rustc-link-search=native={}", folder.display());
    println!("cargo:rustc-link-lib=static=sif_engine");
    Ok(())
}

/// The library that was named.
fn given(path: &Path) -> PathBuf {
    println!("cargo:rerun-if-changed={}", path.display());
    path.to_path_buf()
}

/// The library as the toolchain makes it from the proved crates. It is made again where they change.
fn built(root: &Path) -> Result<PathBuf, String> {
    println!("cargo:rerun-if-changed={}", root.join("crates.txt").display());
    // (what the toolchain makes lies beside them, in out/)
    for entry in fs::read_dir(root.join("crates")).map_err(|e| format!("crates: {e}"))?.flatten() {
        for part in ["src", "specs", "proofs"].map(|part| entry.path().join(part)) {
            if part.is_dir() {
                println!("cargo:rerun-if-changed={}", part.display());
            }
        }
    }
    let done = Command::new(root.join("install/build")).arg("engine").output().map_err(|e| {
        format!("SIF_ENGINE names no library, and install/build cannot be run: {e}")
    })?;
    if !done.status.success() {
        let said = [done.stdout, done.stderr].concat();
        return Err(format!("install/build engine failed:\n{}", String::from_utf8_lossy(&said)));
    }
    Ok(root.join("target/staticlib/libengine.a"))
}

fn variable(name: &str) -> Result<String, String> {
    env::var(name).map_err(|e| format!("{name}: {e}"))
}
