//! `tools/prototypes` passes the header and the Rust list as they are, and tells every kind of difference in a line.
use spoutbasket_tests::sources::project;
use std::path::PathBuf;
use std::process::Command;

const LIBRARY: &str = "crates/spoutbasket/src/lib.rt";
const HEADER: &str = "include/spoutbasket.h";
const SLICES: &str = "rust/src/slices.rs";
const FILES: [&str; 4] = [LIBRARY, "crates/chain/src/lib.rt", HEADER, SLICES];

/// What the tool says of the project with the first `old` in one file made `new`, and whether it passes.
fn judged(file: &str, old: &str, new: &str) -> (bool, String) {
    let root = copy();
    let altered = root.join(file);
    let text = std::fs::read_to_string(&altered).unwrap();
    assert!(text.contains(old), "{file} has no {old}");
    std::fs::write(&altered, text.replacen(old, new, 1)).unwrap();
    let tool = Command::new(project("tools/prototypes"))
        .arg(&root)
        .output();
    std::fs::remove_dir_all(&root).unwrap();
    let tool = tool.unwrap();
    let said = String::from_utf8([tool.stdout, tool.stderr].concat()).unwrap();
    (tool.status.success(), said)
}

/// The files that the tool reads, in a folder of their own.
fn copy() -> PathBuf {
    let root = std::env::temp_dir().join(format!("prototypes-{}", std::process::id()));
    for file in FILES {
        let to = root.join(file);
        std::fs::create_dir_all(to.parent().unwrap()).unwrap();
        std::fs::copy(project(file), to).unwrap();
    }
    root
}

#[test]
fn differences() {
    let (passed, said) = judged(HEADER, "size_t", "size_t");
    assert!(passed, "{said}");
    for (file, old, new, line) in [
        (
            HEADER,
            "spoutbasket_compile(size_t p, size_t q,",
            "spoutbasket_compile(size_t q, size_t p,",
            "spoutbasket_compile: argument 1 is 'size_t q', and the library's 'size_t p'",
        ),
        (
            HEADER,
            "uint32_t modulus",
            "uint64_t modulus",
            "spoutbasket_run: argument 6 is 'uint64_t modulus', and the library's 'uint32_t modulus'",
        ),
        (
            HEADER,
            "spoutbasket_read(const uint8_t *bytes",
            "spoutbasket_read(uint8_t *bytes",
            "spoutbasket_read: argument 1 is 'uint8_t *bytes', and the library's 'const uint8_t *bytes'",
        ),
        (
            HEADER,
            "uint8_t text[SPOUTBASKET_LONGEST_LISTING]",
            "uint8_t text[64]",
            "spoutbasket_list: argument 3 is 'uint8_t text[64]', and the library's 'uint8_t text[SPOUTBASKET_LONGEST_LISTING]'",
        ),
        (
            HEADER,
            "size_t n, uint64_t answer[8]",
            "size_t n, uint64_t answer[4]",
            "spoutbasket_extent: argument 4 is 'uint64_t answer[4]', and the library's 'uint64_t answer[8]'",
        ),
        (
            HEADER,
            "uint32_t spoutbasket_write(",
            "uint64_t spoutbasket_write(",
            "spoutbasket_write returns 'uint64_t', and the library's 'uint32_t'",
        ),
        (
            HEADER,
            "uint32_t spoutbasket_phrase(uint32_t number,",
            "uint32_t spoutbasket_phrase(",
            "spoutbasket_phrase has 3 arguments, and the library's 4",
        ),
        (
            HEADER,
            "uint32_t spoutbasket_phrase(",
            "uint32_t spoutbasket_words(",
            "spoutbasket_phrase is missing",
        ),
        (
            HEADER,
            "uint32_t spoutbasket_phrase(",
            "void spoutbasket_reset(void);\nuint32_t spoutbasket_phrase(",
            "spoutbasket_reset is no function of the library",
        ),
        (
            HEADER,
            "uint32_t spoutbasket_phrase(",
            "uint32_t spoutbasket_phrase(uint32_t number);\nuint32_t spoutbasket_phrase(",
            "spoutbasket_phrase is declared 2 times",
        ),
        (
            HEADER,
            "uint32_t first;\n    uint32_t second;",
            "uint32_t second;\n    uint32_t first;",
            "spoutbasket_step is not a struct of uint32_t first and uint32_t second",
        ),
        (
            SLICES,
            "functions! {\n",
            "function! {\n",
            "spoutbasket_compile is missing",
        ),
        (
            SLICES,
            "        modulus: u32,",
            "        modulus: usize,",
            "spoutbasket_run: argument 4 is 'modulus: usize', and the library's 'modulus: u32'",
        ),
        (
            SLICES,
            "steps: &[[u32; 2]],",
            "steps: &[u32],",
            "spoutbasket_verify_pairs: argument 2 is 'steps: &[u32]', and the library's 'steps: &[[u32; 2]]'",
        ),
        (
            SLICES,
            "answer: &mut [u64; 8],",
            "answer: &mut [u64; 4],",
            "spoutbasket_compile: argument 8 is 'answer: &mut [u64; 4]', and the library's 'answer: &mut [u64; 8]'",
        ),
        (
            SLICES,
            "    fn phrase(",
            "    fn words(",
            "spoutbasket_phrase is missing",
        ),
    ] {
        let (passed, said) = judged(file, old, new);
        assert!(!passed, "{new} passed");
        let line = format!("{file}: {line}");
        assert!(said.lines().any(|other| other == line), "{said}, not {line}");
    }
    // a function that the library has and neither of the two
    let more =
        "#[unsafe(no_mangle)]\npub extern \"C\" fn spoutbasket_more(p: usize) -> u32 { 0 }\n\n#[unsafe(no_mangle)]";
    let (passed, said) = judged(LIBRARY, "#[unsafe(no_mangle)]", more);
    assert!(!passed);
    for file in [HEADER, SLICES] {
        let line = format!("{file}: spoutbasket_more is missing");
        assert!(said.lines().any(|other| other == line), "{said}");
    }
}
