//! The Rust package's build script: which archive it links, and what it says where there is none.
use spoutbasket_tests::command::Folder;
use std::process::{Command, Output};

/// Checks the package with SPOUTBASKET_LIB_DIR set to a folder.
fn check(folder: &Folder, archive: &str) -> Output {
    Command::new(env!("CARGO"))
        .args(["check", "--lib", "--offline", "--manifest-path"])
        .arg(concat!(env!("CARGO_MANIFEST_DIR"), "/../rust/Cargo.toml"))
        .args(["--target-dir", &folder.path("target")])
        .env("SPOUTBASKET_LIB_DIR", folder.path(archive))
        .output()
        .unwrap()
}

#[test]
fn an_archive_that_is_missing() {
    let folder = Folder::new("building");
    folder
        .script("mkdir empty full; touch full/libspoutbasket.a")
        .done();
    let missing = check(&folder, "empty");
    let told = String::from_utf8(missing.stderr).unwrap();
    let why = format!(
        "{} is missing: run `rt lib` in crates/spoutbasket first, or set SPOUTBASKET_LIB_DIR to the archive's folder",
        folder.path("empty/libspoutbasket.a")
    );
    assert!(!missing.status.success() && told.contains(&why), "{told}");
    // another folder is looked at again
    let found = check(&folder, "full");
    assert!(found.status.success(), "{found:?}");
}
