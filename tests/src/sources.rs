//! The project's own files, by their path from its root.
use std::path::{Path, PathBuf};

pub fn project(path: &str) -> PathBuf {
    Path::new(env!("CARGO_MANIFEST_DIR")).join("..").join(path)
}

/// The static library, in the folder that SPOUTBASKET_LIB_DIR names or where `rt lib` writes it.
pub fn archive() -> PathBuf {
    let named = std::env::var_os("SPOUTBASKET_LIB_DIR").map(PathBuf::from);
    let folder = named.unwrap_or_else(|| project("crates/spoutbasket/out"));
    folder.join("libspoutbasket.a")
}

/// What a file says.
pub fn text(path: &str) -> String {
    let said = std::fs::read_to_string(project(path));
    said.unwrap_or_else(|error| panic!("{path}: {error}"))
}
