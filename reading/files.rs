//! The files of the project.
use std::fs;
use std::path::{Path, PathBuf};

/// Those with an extension, in order; what the toolchain has made, in folders `out`, is left out.
pub fn files(dir: &Path, extension: &str) -> Vec<PathBuf> {
    let mut out = Vec::new();
    let Ok(entries) = fs::read_dir(dir) else { return out };
    let mut paths: Vec<PathBuf> = entries.flatten().map(|e| e.path()).collect();
    paths.sort();
    for path in paths {
        if path.is_dir() && !path.ends_with("out") {
            out.extend(files(&path, extension));
        } else if path.extension().is_some_and(|e| e == extension) {
            out.push(path);
        }
    }
    out
}

/// The files of the crates with an extension: their paths below the root, and what is in them.
pub fn sources(root: &Path, extension: &str) -> Result<Vec<(String, String)>, String> {
    let mut out = Vec::new();
    for path in files(&root.join("crates"), extension) {
        let text = fs::read_to_string(&path).map_err(|e| format!("{}: {e}", path.display()))?;
        let name = path.strip_prefix(root).unwrap_or(&path).to_string_lossy().into_owned();
        out.push((name, text));
    }
    Ok(out)
}
