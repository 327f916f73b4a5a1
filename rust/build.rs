//! Links the proved library: from the folder that SPOUTBASKET_LIB_DIR names, else from where `rt lib` in crates/spoutbasket writes it.
use std::path::{Path, PathBuf};
use std::process::ExitCode;

fn main() -> ExitCode {
    println!("cargo:rerun-if-changed=build.rs");
    println!("cargo:rerun-if-env-changed=SPOUTBASKET_LIB_DIR");
    let named = std::env::var_os("SPOUTBASKET_LIB_DIR").map(PathBuf::from);
    let folder =
        named.unwrap_or(Path::new(env!("CARGO_MANIFEST_DIR")).join("../crates/spoutbasket/out"));
    let folder = std::path::absolute(&folder).unwrap_or(folder);
    let archive = folder.join("libspoutbasket.a");
    println!("cargo:rerun-if-changed={}", archive.display());
    if !archive.is_file() {
        eprintln!(
            "{} is missing: run `rt lib` in crates/spoutbasket first, or set SPOUTBASKET_LIB_DIR to the archive's folder",
            archive.display()
        );
        return ExitCode::FAILURE;
    }
    println!("cargo:rustc-link-search=native={}", folder.display());
    println!("cargo:rustc-link-lib=static=spoutbasket");
    ExitCode::SUCCESS
}
