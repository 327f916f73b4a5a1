//! The C header's macros and its function, as a C compiler has them.
use crate::sources::{self, project};
use std::collections::BTreeMap;
use std::process::Command;
use std::sync::OnceLock;

/// The header's text.
pub fn text() -> String {
    sources::text("include/spoutbasket.h")
}

/// The number behind each macro of the header that stands for one, without the prefix.
pub fn numbers() -> &'static BTreeMap<String, usize> {
    static NUMBERS: OnceLock<BTreeMap<String, usize>> = OnceLock::new();
    NUMBERS.get_or_init(|| {
        let said = run_c("macros", &printing(&text()));
        let number = |line: &str| {
            let (name, number) = line.split_once(' ').unwrap();
            (name.to_string(), number.parse().unwrap())
        };
        said.lines().map(number).collect()
    })
}

/// What the header's function says of the bytes of files with such p, q and n.
pub fn file_lengths(sizes: &[[usize; 3]]) -> Vec<usize> {
    let line = |[p, q, n]: &[usize; 3]| {
        let length = format!("spoutbasket_file_length({p}u, {q}u, {n}u)");
        format!("    printf(\"%zu\\n\", {length});\n")
    };
    let lines: String = sizes.iter().map(line).collect();
    let said = run_c("lengths", &program(&lines));
    said.lines().map(|line| line.parse().unwrap()).collect()
}

/// A C program of such lines.
fn program(lines: &str) -> String {
    format!(
        "#include \"spoutbasket.h\"\n#include <stdio.h>\nint main(void) {{\n{lines}    return 0;\n}}\n"
    )
}

/// A C program that prints each such macro and its number.
fn printing(header: &str) -> String {
    let mut lines = String::new();
    for line in header.lines() {
        let Some(name) = line.strip_prefix("#define SPOUTBASKET_") else {
            continue;
        };
        let name = name.split_whitespace().next().unwrap();
        // not the guard, the one that is a string, and the one with arguments
        if !["H", "VERSION"].contains(&name) && !name.contains('(') {
            lines += &format!("    printf(\"{name} %zu\\n\", (size_t)(SPOUTBASKET_{name}));\n");
        }
    }
    program(&lines)
}

/// What a C program prints that is linked with the library.
fn run_c(name: &str, program: &str) -> String {
    let binary = format!("spoutbasket-{name}-{}", std::process::id());
    let binary = std::env::temp_dir().join(binary);
    let source = binary.with_extension("c");
    std::fs::write(&source, program).unwrap();
    let compiled = Command::new("cc")
        .args([
            "-std=c99",
            "-Wall",
            "-Wextra",
            "-Wpedantic",
            "-Werror",
            "-I",
        ])
        .arg(project("include"))
        .arg(&source)
        .arg(sources::archive())
        .arg("-o")
        .arg(&binary)
        .status()
        .expect("a C compiler");
    assert!(compiled.success(), "{program}");
    let output = Command::new(&binary).output().unwrap();
    std::fs::remove_file(&source).unwrap();
    std::fs::remove_file(&binary).unwrap();
    assert!(output.status.success(), "{program}");
    String::from_utf8(output.stdout).unwrap()
}
