//! The command, run as a script runs it, and the lister.
use crate::reference::{pack, FIELD_BYTES};
use std::io::Write;
use std::path::{Path, PathBuf};
use std::process::{Child, Command, Stdio};

/// The manual's week: four payslips of three pay elements, and a receiver's keys.
pub const WEEK: &str = "3 4\n3 0 2\n1 2 0\n0 0 2\n3 2 1\n";
pub const WEEK_AMOUNTS: [u32; 12] = [3, 0, 2, 1, 2, 0, 0, 0, 2, 3, 2, 1];
pub const KEYS: &str = "10000\n3 5 7\n";
/// What the check says of the week's shortest chain.
pub const PASSED: &str = "passed: 3 columns, 4 payslips, 9 steps: 3 squarings, 6 products\n";

/// The commands, in the order of the help.
pub const COMMANDS: [&str; 10] = [
    "compile", "ceiling", "check", "choose", "pool", "list", "run", "figures", "unpack", "pack",
];

/// A sheet as a plain text or as a table.
pub fn sheet_text(p: usize, amounts: &[u32], table: bool) -> String {
    let lines = amounts.chunks(p).map(|payslip| {
        let fields: Vec<String> = payslip.iter().map(u32::to_string).collect();
        fields.join(if table { ";" } else { " " }) + "\n"
    });
    let head = match table {
        true => String::new(),
        false => format!("{p} {}\n", amounts.len() / p),
    };
    head + &lines.collect::<String>()
}

/// A sheet as packed fields with sign C.
pub fn packed(p: usize, amounts: &[u32]) -> Vec<u8> {
    let mut fields = vec![0; FIELD_BYTES * amounts.len()];
    pack(p, amounts.len() / p, amounts, &mut fields).unwrap();
    fields
}

/// A number of things as the command says it.
pub fn count(number: usize, thing: &str) -> String {
    match number {
        1 => format!("1 {thing}"),
        _ => format!("{number} {thing}s"),
    }
}

/// A chain's counts as the command says them, the steps by some name.
pub fn counts(step: &str, counts: &[u64]) -> String {
    let things = [step, "squaring", "product"];
    let counts = counts.iter().zip(things);
    let words: Vec<String> = counts
        .map(|(&number, thing)| count(number as usize, thing))
        .collect();
    format!("{}: {}", words[0], words[1..].join(", "))
}

/// The same counts as fields of an object.
pub fn counts_json(steps: &str, counts: &[u64]) -> String {
    let names = [steps, "squarings", "products"];
    let fields: Vec<String> = counts
        .iter()
        .zip(names)
        .map(|(number, name)| format!("\"{name}\":{number}"))
        .collect();
    fields.join(",")
}

/// How a run ended.
#[derive(Debug)]
pub struct Ended {
    pub status: i32,
    /// Standard output.
    pub said: Vec<u8>,
    /// Standard error.
    pub told: String,
}

impl Ended {
    /// Done, quietly; what was said, as text.
    pub fn done(self) -> String {
        assert_eq!((self.status, self.told.as_str()), (0, ""));
        String::from_utf8(self.said).unwrap()
    }

    /// Ended with a status and one line on standard error, and nothing said; the line without the command's name and without its end.
    pub fn ended(self, status: i32) -> String {
        let said = String::from_utf8_lossy(&self.said);
        assert_eq!((self.status, said.as_ref()), (status, ""), "{}", self.told);
        self.line()
    }

    /// The one line on standard error.
    pub fn line(&self) -> String {
        let line = self.told.strip_prefix("spoutbasket: ");
        let line = line.and_then(|line| line.strip_suffix('\n'));
        let line = line.filter(|line| !line.contains('\n'));
        line.unwrap_or_else(|| panic!("{self:?}")).to_string()
    }
}

/// The folder of the command, where `cargo build --release` leaves it.
fn programs() -> PathBuf {
    Path::new(env!("CARGO_MANIFEST_DIR")).join("../rust/target/release")
}

/// The command, with its three streams piped.
pub fn start(arguments: &[&str]) -> Child {
    start_on(arguments, Stdio::piped())
}

/// The command on some standard input, with its two other streams piped.
pub fn start_on(arguments: &[&str], stdin: impl Into<Stdio>) -> Child {
    start_program(programs().join("spoutbasket"), arguments, stdin)
}

fn start_program(path: PathBuf, arguments: &[&str], stdin: impl Into<Stdio>) -> Child {
    Command::new(path)
        .args(arguments)
        .stdin(stdin)
        .stdout(Stdio::piped())
        .stderr(Stdio::piped())
        .spawn()
        .expect("the programs are built before their tests")
}

/// Waits for the end.
pub fn end(child: Child) -> Ended {
    let output = child.wait_with_output().unwrap();
    Ended {
        status: output.status.code().expect("ended by no signal"),
        said: output.stdout,
        told: String::from_utf8(output.stderr).unwrap(),
    }
}

/// The command on some input.
pub fn spoutbasket(arguments: &[&str], input: &[u8]) -> Ended {
    end_on(start(arguments), input)
}

/// The lister, as `rt ci` leaves it, on some input.
pub fn lister(input: &[u8]) -> Ended {
    let path = Path::new(env!("CARGO_MANIFEST_DIR")).join("../crates/lister/out/lister");
    end_on(start_program(path, &[], Stdio::piped()), input)
}

/// Writes some input and waits for the end.
fn end_on(mut child: Child, input: &[u8]) -> Ended {
    let mut stdin = child.stdin.take().unwrap();
    let input = input.to_vec();
    // it need not read all of its input
    let writer = std::thread::spawn(move || stdin.write_all(&input).is_ok());
    let ended = end(child);
    writer.join().unwrap();
    ended
}

/// A folder of a test's own, removed at the end.
pub struct Folder(PathBuf);

impl Folder {
    pub fn new(name: &str) -> Folder {
        let name = format!("spoutbasket-{name}-{}", std::process::id());
        let folder = std::env::temp_dir().join(name);
        std::fs::create_dir_all(&folder).unwrap();
        Folder(folder)
    }

    /// A folder with the week's sheet, plain and packed, keys and shortest chain.
    pub fn week(name: &str) -> Folder {
        let folder = Folder::new(name);
        let sheet = folder.file("week.txt", WEEK);
        folder.file("bank.keys", KEYS);
        let chain = folder.path("week.chain");
        spoutbasket(&["compile", &sheet, "-o", &chain], b"").done();
        folder.file("week.packed", packed(3, &WEEK_AMOUNTS));
        folder
    }

    /// The path of a name in it.
    pub fn path(&self, name: &str) -> String {
        self.0.join(name).to_str().unwrap().to_string()
    }

    /// A file in it.
    pub fn file(&self, name: &str, bytes: impl AsRef<[u8]>) -> String {
        let path = self.path(name);
        std::fs::write(&path, bytes).unwrap();
        path
    }

    /// Whether a name in it is a symbolic link.
    pub fn is_link(&self, name: &str) -> bool {
        self.0.join(name).is_symlink()
    }

    /// The names in it, in order.
    pub fn names(&self) -> Vec<String> {
        let names = std::fs::read_dir(&self.0).unwrap();
        let names = names.map(|entry| entry.unwrap().file_name().into_string().unwrap());
        let mut names = Vec::from_iter(names);
        names.sort();
        names
    }

    /// A script of the shell, run in it with the command at hand.
    pub fn script(&self, text: &str) -> Ended {
        let path = std::env::var("PATH").unwrap();
        let child = Command::new("bash")
            .args(["-c", text])
            .current_dir(&self.0)
            .env("PATH", format!("{}:{path}", programs().display()))
            .stdin(Stdio::null())
            .stdout(Stdio::piped())
            .stderr(Stdio::piped())
            .spawn()
            .unwrap();
        end(child)
    }
}

impl Drop for Folder {
    fn drop(&mut self) {
        let _ = std::fs::remove_dir_all(&self.0);
    }
}
