//! A look at the run as compiled: its speed rests on the compiler making one wide multiplication of the upper half of a product, and no division a step,
//! and on its counting several steps at a time where they are judged.
use std::path::Path;
use std::process::Command;

/// The archive that the build linked.
fn archive() -> String {
    let folder = std::env::var("SPOUTBASKET_LIB_DIR").unwrap_or_else(|_| {
        let here = Path::new(env!("CARGO_MANIFEST_DIR"));
        here.join("../crates/spoutbasket/out").display().to_string()
    });
    format!("{folder}/libspoutbasket.a")
}

/// Prints how many wide multiplications and divisions the function `runner::run` has, and how many compares of several numbers at a time.
pub fn look() {
    let listed = Command::new("objdump")
        .args(["--disassemble", "--no-show-raw-insn", &archive()])
        .output();
    let Ok(listed) = listed else {
        return println!("the run as compiled: not looked at, objdump is missing");
    };
    let text = String::from_utf8_lossy(&listed.stdout);
    let body = text
        .split("\n\n")
        .find(|part| part.lines().any(|line| line.ends_with("<runner::run>:")));
    let Some(body) = body else {
        return println!("the run as compiled: not looked at, it has no function of its own");
    };
    // an instruction stands after its address
    let count = |name: &str| {
        let named = |line: &&str| line.split_whitespace().nth(1) == Some(name);
        body.lines().filter(named).count()
    };
    println!(
        "the run as compiled: wide multiplications {} (1 is wanted), divisions {} (1, for the inverse), packed compares {} (some, for the steps' count)",
        count("mul"),
        count("div"),
        count("pcmpgtd")
    );
}
