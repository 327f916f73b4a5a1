//! The command where input or output fails: the status and the line, and a chain file that is whole or not there.
use spoutbasket_tests::command::{end, spoutbasket, start, start_on, Ended, Folder, PASSED, WEEK};
use spoutbasket_tests::texts::phrase;
use std::io::Write;
use std::os::fd::OwnedFd;
use std::os::unix::fs::{symlink, MetadataExt, PermissionsExt};
use std::os::unix::net::UnixStream;
use std::time::Duration;

const FULL: &str = "No space left on device (os error 28)";

/// The commands that write to standard output.
const WRITING: [&str; 15] = [
    "compile week.txt",
    "ceiling week.txt",
    "ceiling --json week.txt",
    "choose week.txt week.chain week.chain",
    "pool week.chain week.chain",
    "unpack --packed 3,4 week.packed",
    "pack week.txt",
    "check week.txt week.chain",
    "check --json week.txt week.chain",
    "list week.chain",
    "list --json week.chain",
    "run --keys bank.keys week.chain",
    "figures --keys bank.keys week.txt",
    "help list",
    "--version",
];

#[test]
fn a_full_device() {
    let folder = Folder::week("full");
    for command in WRITING {
        let ended = folder.script(&format!("spoutbasket {command} > /dev/full"));
        assert_eq!(
            ended.ended(3),
            format!("standard output: {FULL}"),
            "{command}"
        );
    }
    let ended = folder.script("spoutbasket compile week.txt -o /dev/full");
    assert_eq!(ended.ended(3), format!("/dev/full: {FULL}"));
    // where a refusal cannot be written as an object there is nothing to parse
    let ended = folder.script("spoutbasket list --json week.txt > /dev/full");
    assert_eq!(ended.ended(3), format!("standard output: {FULL}"));
    // messages that cannot be written leave the status as it is
    for (command, status) in [("list week.txt", 1), ("list --no", 2), ("list none", 3)] {
        let ended = folder.script(&format!("spoutbasket {command} 2> /dev/full"));
        assert_eq!(
            (ended.status, ended.told.as_str()),
            (status, ""),
            "{command}"
        );
    }
    let ended = folder.script("spoutbasket compile -v week.txt -o x.chain 2> /dev/full");
    assert_eq!(ended.done(), "");
}

#[test]
fn closed_output() {
    let folder = Folder::week("closed");
    for command in WRITING {
        // the reader is gone before the command starts
        let ended = folder.script(&format!(
            "mkfifo pipe; exec 3<> pipe 4> pipe 3<&-; rm pipe; spoutbasket {command} >&4"
        ));
        let broken = "standard output: Broken pipe (os error 32)";
        assert_eq!(ended.ended(3), broken, "{command}");

        let ended = folder.script(&format!("spoutbasket {command} >&-"));
        // that a chain passed is said by the status too
        match command {
            "check week.txt week.chain" => assert_eq!(ended.done(), ""),
            _ => assert_eq!(ended.ended(3), "standard output: closed", "{command}"),
        }
        assert_eq!(
            folder
                .script(&format!("spoutbasket {command} > /dev/null"))
                .done(),
            ""
        );
    }
    // a result that goes elsewhere is not lost
    let ended =
        folder.script("spoutbasket compile week.txt -o new.chain >&-; cmp new.chain week.chain");
    assert_eq!(ended.done(), "");
    let ended = folder.script("spoutbasket list nothing >&- 2>&-");
    assert_eq!((ended.status, ended.told.as_str()), (3, ""));
}

/// Writes parts with a pause after each; a pause is no end.
fn in_parts(arguments: &[&str], parts: &[&str]) -> Ended {
    let mut child = start(arguments);
    let mut stdin = child.stdin.take().unwrap();
    for part in parts {
        stdin.write_all(part.as_bytes()).unwrap();
        std::thread::sleep(Duration::from_millis(150));
    }
    drop(stdin);
    end(child)
}

#[test]
fn a_producer_that_pauses_or_dies() {
    let compiled = in_parts(&["compile"], &["1 ", "1\n187", "500\n"]);
    assert_eq!(
        spoutbasket(&["list"], &compiled.said).done().lines().nth(1),
        Some("1 187500")
    );
    let cut = in_parts(&["compile"], &["1 1\n187", "500"]);
    let why = format!("refused 103 at line 2, column 7: {}", phrase(103));
    assert_eq!(cut.ended(1), format!("standard input: {why}"));

    // a chain and keys in parts
    let folder = Folder::week("parts");
    let chain = std::fs::read(folder.path("week.chain")).unwrap();
    let ended = folder.script(
        "{ head -c 5 week.chain; sleep 0.2; tail -c +6 week.chain; } | spoutbasket check week.txt -",
    );
    assert_eq!(ended.done(), PASSED);
    let ended = folder.script("head -c 5 week.chain | spoutbasket check week.txt -");
    let why = format!("standard input: refused 6: {}: 5 bytes", phrase(6));
    assert_eq!((chain.len() > 5, ended.ended(1)), (true, why));
    let keys = in_parts(
        &["run", "--keys", "-", &folder.path("week.chain")],
        &["100", "00\n3 5", " 7\n"],
    );
    assert_eq!(keys.done().lines().next(), Some("1323"));
}

/// A read that fails after whole lines have been read is no end either: here a socket that does not wait.
#[test]
fn a_read_that_fails_midway() {
    let folder = Folder::week("midway");
    let (keys, chain) = (folder.path("bank.keys"), folder.path("week.chain"));
    for (arguments, part) in [
        (vec!["compile"], "1 1\n187\n"),
        (vec!["figures", "--table", "--keys", &keys], "1 2 3\n"),
        (vec!["run", "--keys", "-", &chain], "10000\n3 5 7\n"),
    ] {
        let (mut producer, input) = UnixStream::pair().unwrap();
        input.set_nonblocking(true).unwrap();
        producer.write_all(part.as_bytes()).unwrap();
        let ended = end(start_on(&arguments, OwnedFd::from(input)));
        let why = "standard input: Resource temporarily unavailable (os error 11)";
        assert_eq!(ended.ended(3), why, "{arguments:?}");
    }
}

#[test]
fn input_that_cannot_be_read() {
    let folder = Folder::week("unread");
    folder.script("mkdir folder").done();
    for (name, why) in [
        ("folder", "Is a directory (os error 21)"),
        ("none", "No such file or directory (os error 2)"),
        ("week.txt/none", "Not a directory (os error 20)"),
        // its first page cannot be read, whoever reads it
        ("/proc/self/mem", "Input/output error (os error 5)"),
    ] {
        for command in [
            "compile NAME",
            "compile --table NAME -o new.chain",
            "ceiling NAME",
            "check NAME week.chain",
            "check week.txt NAME",
            "check NAME week.txt week.chain",
            "check week.txt NAME week.chain",
            "check week.txt week.txt NAME",
            "choose week.txt NAME week.chain",
            "choose week.txt week.chain NAME",
            "check --packed 3,4,4 week.packed NAME week.chain",
            "unpack --packed 3,4 NAME -o new.chain",
            "pack NAME -o new.chain",
            "pack --packed 3,4 NAME -o new.chain",
            "pool NAME week.chain -o new.chain",
            "pool week.chain NAME -o new.chain",
            "list NAME",
            "run --keys bank.keys NAME",
            "run --keys NAME week.chain",
            "figures --keys NAME week.txt",
            "figures --keys bank.keys NAME",
        ] {
            let ended = folder.script(&format!("spoutbasket {}", command.replace("NAME", name)));
            assert_eq!(ended.ended(3), format!("{name}: {why}"), "{command}");
        }
    }
    let ended = folder.script("spoutbasket list < folder");
    assert_eq!(
        ended.ended(3),
        "standard input: Is a directory (os error 21)"
    );
    let ended = folder.script("spoutbasket list 0> written");
    assert_eq!(
        ended.ended(3),
        "standard input: Bad file descriptor (os error 9)"
    );
    // input without an end
    for command in ["compile", "unpack --packed 3,4"] {
        let ended = folder.script(&format!("spoutbasket {command} /dev/zero"));
        assert_eq!(ended.ended(3), "/dev/zero: longer than 16 MiB");
    }
    let ended = folder.script("yes 1 | spoutbasket figures --keys - week.txt");
    assert_eq!(ended.ended(3), "standard input: longer than 16 MiB");
    let ended = folder.script("yes 1 | tr -d '\\n' | tr 1 '\\21' | spoutbasket list");
    let why = format!(
        "refused 6: {}: over 56116 bytes, the longest file",
        phrase(6)
    );
    assert_eq!(ended.ended(1), format!("standard input: {why}"));
    // no input at all
    let ended = folder.script("spoutbasket compile <&-");
    assert_eq!(
        ended.ended(1),
        format!("standard input: refused 1: {}: p is missing", phrase(1))
    );
    assert!(!folder.names().contains(&"new.chain".to_string()));
}

#[test]
fn output_that_cannot_be_written() {
    let folder = Folder::week("unwritten");
    folder
        .script(
            "mkdir folder; echo old > old.chain; ln week.txt same.txt
            ln week.chain same.chain; cp week.chain other.chain; ln week.packed same.packed",
        )
        .done();
    let names = folder.names();
    for (target, status, why) in [
        ("folder", 3, "folder: is a directory"),
        (".", 3, ".: is a directory"),
        (
            "none/x.chain",
            3,
            "none/x.chain: No such file or directory (os error 2)",
        ),
        (
            "week.txt/x.chain",
            3,
            "week.txt/x.chain: Not a directory (os error 20)",
        ),
        ("new.chain/", 3, "new.chain/: Not a directory (os error 20)"),
    ] {
        for command in [
            "compile week.txt",
            "choose week.txt week.chain week.chain",
            "pool week.chain week.chain",
            "unpack --packed 3,4 week.packed",
            "pack week.txt",
        ] {
            let ended = folder.script(&format!("spoutbasket {command} -o {target}"));
            assert_eq!(ended.ended(status), why, "{command}");
        }
    }
    for command in [
        "compile week.txt -o same.txt",
        "compile -o week.txt < week.txt",
        "choose - week.chain week.chain -o same.txt < week.txt",
        "pack week.txt -o same.txt",
        "pack -o same.txt < week.txt",
        "pack --packed 3,4 week.packed -o same.packed",
        "unpack --packed 3,4 week.packed -o same.packed",
        "compile --packed 3,4 week.packed -o same.packed",
    ] {
        let ended = folder.script(&format!("spoutbasket {command}"));
        assert!(ended.ended(2).contains("-o names the sheet itself"));
    }
    for command in [
        "pool week.chain other.chain -o same.chain",
        "pool other.chain week.chain -o same.chain",
        "pool - other.chain -o same.chain < week.chain",
    ] {
        let ended = folder.script(&format!("spoutbasket {command}"));
        assert!(ended.ended(2).contains("-o names a part itself"));
    }
    // refused input leaves an old file as it was
    let ended = folder.script("echo 1 1 x | spoutbasket compile -o old.chain");
    assert_eq!(ended.status, 1);
    let ended = folder.script("spoutbasket choose week.txt old.chain old.chain -o old.chain");
    assert_eq!(ended.status, 1);
    let ended = folder.script("spoutbasket pool week.chain week.txt -o old.chain");
    assert_eq!(ended.status, 1);
    let ended = folder.script("spoutbasket unpack --packed 3,5 week.packed -o old.chain");
    assert_eq!(ended.status, 1);
    let ended = folder.script("echo 1 1 1000000000 | spoutbasket pack -o old.chain");
    assert_eq!(ended.status, 1);
    assert_eq!(folder.script("cat old.chain").done(), "old\n");
    assert_eq!(folder.names(), names);
}

/// No room for the whole file: the old one stays, or none, and nothing is left beside it.
#[test]
fn no_half_of_a_chain() {
    let folder = Folder::new("half");
    let sample = concat!(env!("CARGO_MANIFEST_DIR"), "/../samples/sheet-31.txt");
    folder
        .script(&format!("cp {sample} sheet.txt; echo old > old.chain"))
        .done();
    let names = folder.names();
    for target in ["old.chain", "new.chain"] {
        let ended = folder.script(&format!(
            "trap '' XFSZ; ulimit -f 1; spoutbasket compile sheet.txt -o {target}"
        ));
        assert_eq!(
            ended.ended(3),
            format!("{target}: File too large (os error 27)")
        );
        assert_eq!(folder.names(), names);
        assert_eq!(folder.script("cat old.chain").done(), "old\n");
    }
    // with room it is replaced
    folder
        .script("spoutbasket compile sheet.txt -o old.chain")
        .done();
    let checked = folder
        .script("spoutbasket check sheet.txt old.chain")
        .done();
    let passed = "passed: 9 columns, 48 payslips, 1555 steps: 141 squarings, 1414 products\n";
    assert_eq!(checked, passed);
    assert_eq!(folder.names(), names);
}

/// A sync of files, or of folders if FOLDERS is set, that fails with the error of a number.
const FAILING_SYNC: &str = "#include <errno.h>
#include <stdlib.h>
#include <sys/stat.h>
int fsync(int fd)
{
    struct stat found;
    if (fstat(fd, &found) != 0 || !S_ISDIR(found.st_mode) != !getenv(\"FOLDERS\"))
        return 0;
    errno = atoi(getenv(\"ERROR\"));
    return -1;
}
int fdatasync(int fd) { return fsync(fd); }
";

/// Bytes that are lost on their way to the device, which is known only at the sync.
#[test]
fn a_sync_that_fails() {
    let folder = Folder::week("sync");
    folder.file("sync.c", FAILING_SYNC);
    folder
        .script("cc -shared -fPIC sync.c -o sync.so; echo old > old.chain; touch listed")
        .done();
    let names = folder.names();
    let run = |setting: &str, command: &str| {
        folder.script(&format!(
            "LD_PRELOAD=$PWD/sync.so {setting} spoutbasket {command}"
        ))
    };
    let lost = "Input/output error (os error 5)";
    let listed = "list week.chain > listed";
    let compiled = "compile week.txt -o old.chain";
    let ended = run("ERROR=5", listed);
    assert_eq!(ended.ended(3), format!("standard output: {lost}"));
    let ended = run("ERROR=5", compiled);
    assert_eq!(ended.ended(3), format!("old.chain: {lost}"));
    assert_eq!(folder.script("cat old.chain").done(), "old\n");
    assert_eq!(folder.names(), names);
    // the file is whole, but its name may be lost
    let ended = run("ERROR=5 FOLDERS=1", compiled);
    assert_eq!(ended.ended(3), format!("old.chain: {lost}"));
    assert_eq!(folder.names(), names);
    // a file system without a sync: EINVAL
    for setting in ["ERROR=22", "ERROR=22 FOLDERS=1"] {
        run(setting, listed).done();
        run(setting, compiled).done();
        assert_eq!(folder.script("cmp week.chain old.chain").done(), "");
    }
}

/// Whoever reads the name while it is written has one whole chain or the other.
#[test]
fn readers_of_a_chain_that_is_replaced() {
    let folder = Folder::week("replaced");
    let (sheet, chain) = (folder.path("week.txt"), folder.path("week.chain"));
    let compile = |method: &str| {
        spoutbasket(&["compile", "--method", method, &sheet, "-o", &chain], b"").done();
        std::fs::read(&chain).unwrap()
    };
    let whole = [compile("straus:3"), compile("yao:1")];
    assert_ne!(whole[0], whole[1]);
    std::thread::scope(|scope| {
        let writer = scope.spawn(|| {
            for _ in 0..20 {
                compile("straus:3");
                compile("yao:1");
            }
        });
        while !writer.is_finished() {
            let bytes = std::fs::read(&chain).unwrap();
            assert!(whole.contains(&bytes), "{} bytes", bytes.len());
        }
    });
}

/// A file with the mode of the old one, or of any new one; other names of the old one keep it; a link stays a link, even one to no file yet; devices and
/// pipes are written as they are.
#[test]
fn where_a_chain_goes() {
    let folder = Folder::week("target");
    folder
        .script("echo old > old.chain; ln old.chain other.chain; mkdir far; (umask 0; echo > open.chain); (umask 077; echo > own.chain)")
        .done();
    symlink("far/real.chain", folder.path("link.chain")).unwrap();
    symlink("link.first", folder.path("far/link.ahead")).unwrap();
    symlink("far/link.ahead", folder.path("ahead.chain")).unwrap();
    folder.script("echo old > far/real.chain").done();
    let said = folder.script(
        "set -euo pipefail
        umask 027
        for name in old link ahead new open own; do spoutbasket compile week.txt -o $name.chain; done
        for name in old new open own far/real; do cmp week.chain $name.chain; done
        cmp week.chain far/link.first; cat other.chain
        spoutbasket compile week.txt -o /dev/null
        mkfifo pipe; cat pipe > through.chain & spoutbasket compile week.txt -o pipe; wait
        cmp week.chain through.chain
        for name in /dev/stdout /dev/fd/1 /proc/self/fd/1; do
            echo before > log; spoutbasket compile week.txt -o $name >> log
            { echo before; cat week.chain; } | cmp - log
        done",
    );
    assert_eq!(said.done(), "old\n");
    let of = |name: &str| std::fs::metadata(folder.path(name)).unwrap();
    for (name, mode) in [
        ("new.chain", 0o640),
        ("own.chain", 0o600),
        ("open.chain", 0o666),
    ] {
        assert_eq!(of(name).permissions().mode() & 0o777, mode, "{name}");
    }
    assert_ne!(of("old.chain").ino(), of("other.chain").ino());
    for name in ["link.chain", "ahead.chain", "far/link.ahead"] {
        assert!(folder.is_link(name), "{name}");
    }
    let hidden = |name: &String| name.starts_with('.');
    assert!(!folder.names().iter().any(hidden), "{:?}", folder.names());
}

/// A person's terminal gets no chain's bytes unless that is asked for.
#[test]
fn a_terminal() {
    let folder = Folder::week("terminal");
    let on_terminal = |command: &str| {
        let said = folder.script(&format!("script -qec 'spoutbasket {command}' /dev/null"));
        (
            said.status,
            String::from_utf8_lossy(&said.said).into_owned(),
        )
    };
    let chain = "a chain is no text for a terminal: give -o CHAIN";
    let fields = "packed fields are no text for a terminal: give -o FIELDS";
    for (command, why) in [
        ("compile week.txt", chain),
        ("choose week.txt week.chain week.chain", chain),
        ("pool week.chain week.chain", chain),
        ("compile --packed 3,4 week.packed", chain),
        ("pack week.txt", fields),
        ("pack --packed 3,4 week.packed", fields),
    ] {
        let (status, said) = on_terminal(command);
        assert_eq!(status, 2);
        assert!(said.contains(why), "{said}");
    }
    assert_eq!(
        on_terminal("compile week.txt -o new.chain"),
        (0, String::new())
    );
    assert_eq!(on_terminal("compile week.txt -o -").0, 0);
    assert_eq!(on_terminal("pack week.txt -o -").0, 0);
    assert_eq!(
        on_terminal("pack week.txt -o new.packed"),
        (0, String::new())
    );
    // a plain sheet is a text
    let (status, said) = on_terminal("unpack --packed 3,4 week.packed");
    assert_eq!((status, said.replace("\r\n", "\n")), (0, WEEK.to_string()));
    let (status, said) = on_terminal("check week.txt week.chain");
    assert_eq!((status, said.trim_end()), (0, PASSED.trim_end()));
}

/// A night's script releases what passed and nothing else.
#[test]
fn a_night() {
    let folder = Folder::week("night");
    folder
        .script("{ printf '\\21'; tail -c +2 week.chain; } > flipped.chain")
        .done();
    let night = |chain: &str| {
        folder.script(&format!(
            "set -euo pipefail
            if spoutbasket check week.txt {chain}; then echo RELEASED; fi
            echo END"
        ))
    };
    assert_eq!(
        night("week.chain").done(),
        format!("{PASSED}RELEASED\nEND\n")
    );
    for chain in ["flipped.chain", "none.chain", "week.txt", "."] {
        let said = night(chain);
        assert_eq!(
            (said.status, said.said.as_slice()),
            (0, &b"END\n"[..]),
            "{chain}"
        );
        assert!(said.line().starts_with(&format!("{chain}: ")), "{chain}");
    }
    // without a test the script ends at the first line that fails
    for (line, status) in [
        ("spoutbasket check week.txt flipped.chain", 1),
        ("spoutbasket check week.txt", 2),
        ("spoutbasket compile none.txt -o new.chain", 3),
        ("cat none.txt 2> why | spoutbasket compile -o new.chain", 1),
        ("printf '1 1\\n187' | spoutbasket compile -o new.chain", 1),
        (
            "spoutbasket run --keys none.keys week.chain | cat > figures",
            3,
        ),
        (
            "spoutbasket run --keys bank.keys flipped.chain | sort > figures",
            1,
        ),
    ] {
        let said = folder.script(&format!("set -euo pipefail\n{line}\necho RELEASED"));
        assert_eq!((said.status, said.said.len()), (status, 0), "{line}");
    }
    assert!(!folder.names().contains(&"new.chain".to_string()));
}
