//! What the pages say of the command is what it does: synopses, the example, objects, messages, the night's script, the sample. What they say of the
//! sources is there: files, contracts, edits.
use spoutbasket_tests::command::{spoutbasket, Folder, COMMANDS, KEYS, WEEK};
use spoutbasket_tests::sources::{project, text as page};

/// The lines of the block of code after some words, without their indent.
fn block<'a>(page: &'a str, words: &str) -> Vec<&'a str> {
    let (_, rest) = page.split_once(words).unwrap_or_else(|| panic!("{words}"));
    let lines = rest.lines().skip_while(|line| !line.starts_with("    "));
    lines
        .take_while(|line| line.starts_with("    ") || line.is_empty())
        .map(|line| line.strip_prefix("    ").unwrap_or(""))
        .collect()
}

/// The text of a file that a page shows.
fn shown(page: &str, words: &str) -> String {
    format!("{}\n", block(page, words).join("\n").trim_end())
}

/// A folder with the manual's sheet and keys.
fn week(name: &str) -> Folder {
    let manual = page("docs/MANUAL.md");
    let folder = Folder::new(name);
    assert_eq!(shown(&manual, "**Plain**"), WEEK);
    folder.file("week.txt", WEEK);
    folder.file("week.csv", shown(&manual, "**A table**"));
    assert_eq!(shown(&manual, "## Keys"), KEYS);
    folder.file("bank.keys", KEYS);
    folder
}

/// The manual page without its marks.
fn manual_page() -> String {
    let mut page = page("docs/spoutbasket.1");
    for mark in ["\\fB", "\\fI", "\\fR"] {
        page = page.replace(mark, "");
    }
    page.replace("\\-", "-").replace("\\(aq", "'")
}

#[test]
fn every_synopsis_in_the_manual_page() {
    let page = manual_page();
    for name in COMMANDS {
        let help = spoutbasket(&["help", name], b"").done();
        let usage = help.lines().next().unwrap();
        let usage = usage.strip_prefix("Usage: ").unwrap();
        assert!(page.lines().any(|line| line == usage), "{usage}");
    }
}

/// Does what a session shows, and sees that each command says what is shown; how many there are.
fn play(folder: &Folder, session: &str) -> usize {
    let parts = session.split("$ ").filter(|part| !part.is_empty());
    parts
        .map(|part| {
            let (command, expected) = part.split_once('\n').unwrap();
            assert_eq!(folder.script(command).done(), expected, "{command}");
        })
        .count()
}

#[test]
fn the_example_of_the_manual() {
    let folder = week("example");
    let manual = page("docs/MANUAL.md");
    let session = shown(&manual, "## From a sheet to its figures");
    assert_eq!(play(&folder, &session), 6);
    let same = "spoutbasket compile week.txt | cmp - best.chain";
    assert_eq!(folder.script(same).done(), "");
    let same = "spoutbasket check --table week.csv best.chain";
    folder.script(same).done();
    let told = folder.script("spoutbasket list -v best.chain").told;
    assert_eq!(told, shown(&manual, "Staff who look W up"));
    let session = shown(&manual, "## What a chain costs a receiver");
    assert_eq!(play(&folder, &session), 1);
}

/// The lowest ceilings, of which the first is not that of the shortest chain, and a short last group.
#[test]
fn the_ceilings_of_the_manual() {
    let folder = week("manual-ceilings");
    let session = shown(&page("docs/MANUAL.md"), "## What the tariff bills");
    assert_eq!(play(&folder, &session), 2);
    let best = folder.script("spoutbasket compile -v week.txt -o best.chain");
    let line = "week.txt: yao:1, 9 steps: 3 squarings, 6 products";
    assert_eq!(best.line(), line);
}

/// Two sheets and the pool of their chains, and what is said where they do not go together.
#[test]
fn the_pool_of_the_manual() {
    let folder = week("manual-pool");
    let manual = page("docs/MANUAL.md");
    let (_, section) = manual.split_once("## Two pay groups").unwrap();
    folder.file("hourly.txt", shown(section, "The hourly paid are"));
    let session = shown(section, "Each sheet has its own chain");
    assert_eq!(play(&folder, &session), 5);
    let refused = folder.script(
        "printf '3 2\\n2 0 1\\n0 5 0\\n' > hourly.txt
        spoutbasket check week.txt hourly.txt pool.chain",
    );
    assert_eq!(refused.told, shown(section, "In a check against two"));
    let refused = folder.script(
        "printf '2 1\\n2 0\\n' | spoutbasket compile -o narrow.chain
        spoutbasket pool week.chain narrow.chain",
    );
    assert_eq!(refused.told, shown(section, "with both names"));
    // the manual page's example is the manual's
    let page = manual_page();
    let lines = session.lines().filter(|line| line.contains(" pool.chain"));
    for line in lines.filter(|line| !line.contains(" run ")) {
        let command = line.strip_prefix("$ ").unwrap();
        assert!(page.lines().any(|line| line == command), "{command}");
    }
}

/// Packed fields of the manual's sheet, and what is said of one that is refused.
#[test]
fn the_fields_of_the_manual() {
    let folder = week("manual-fields");
    let manual = page("docs/MANUAL.md");
    let session = shown(&manual, "**Packed**");
    assert_eq!(play(&folder, &session), 6);
    let refused = folder.script(
        "printf '\\240' | dd of=week.packed bs=1 seek=33 conv=notrunc status=none
        spoutbasket compile --packed 3,4 week.packed -o week.chain",
    );
    assert_eq!(refused.told, shown(&manual, "that is somebody's pay"));
    // the manual page's example is the manual's
    let page = manual_page();
    let lines = session
        .lines()
        .filter(|line| line.contains(" --packed 3,4"));
    for line in lines.filter(|line| !line.contains(" unpack ")) {
        let command = line.strip_prefix("$ ").unwrap();
        assert!(page.lines().any(|line| line == command), "{command}");
    }
}

/// Every object and every message that the manual shows, and the messages of the manual page.
#[test]
fn the_objects_and_messages_of_the_manual() {
    let folder = week("objects");
    let manual = page("docs/MANUAL.md");
    let said = folder.script(
        "spoutbasket compile week.txt -o week.chain
        spoutbasket ceiling --json --method straus:1 week.txt
        spoutbasket check --json week.txt week.chain
        spoutbasket list --json week.chain
        spoutbasket run --json --keys bank.keys week.chain
        spoutbasket figures --json --keys bank.keys week.txt",
    );
    assert_eq!(said.done(), shown(&manual, "## JSON"));
    let refused = folder.script(
        "printf '3 65\\n' > week.txt; spoutbasket compile week.txt
        printf '1 1\\n187.50\\n' > week.txt; spoutbasket compile week.txt
        printf '3 4\\n3 0 2\\n1 2 0\\n0 1 2\\n3 2 1\\n' > week.txt; spoutbasket check --json week.txt week.chain
        echo 10000 3 5 7 11 > bank.keys; spoutbasket run --keys bank.keys week.chain",
    );
    let object = String::from_utf8(refused.said).unwrap();
    assert_eq!(object, shown(&manual, "A refusal is an object too"));
    assert_eq!(refused.told, shown(&manual, "## What the messages mean"));
    let page = manual_page();
    let (_, diagnostics) = page.split_once(".SH DIAGNOSTICS").unwrap();
    let messages: Vec<&str> = diagnostics
        .lines()
        .filter(|line| line.starts_with("spoutbasket: "))
        .collect();
    assert!(!messages.is_empty());
    assert!(messages.iter().all(|line| refused.told.contains(line)));
}

#[test]
fn the_night_of_the_manual() {
    let folder = week("manual-night");
    folder
        .script("mkdir outbox; cp bank.keys pension.keys")
        .done();
    let script = shown(&page("docs/MANUAL.md"), "## At night");
    let script = script.replace("cd /srv/payroll", "pwd > here");
    assert_eq!(folder.script(&script).done(), "");
    for name in ["bank.figures", "check.txt", "friday.txt", "pension.figures"] {
        assert!(folder.names().contains(&name.to_string()), "{name}");
    }
    assert_eq!(folder.script("cmp week.chain outbox/week.chain").done(), "");
    let clear = "rm -rf outbox/* *.figures friday.txt";
    let left = "ls outbox; ls | grep -E 'figures|friday' || true";
    // a check that is not done ends the night before anything goes out
    folder
        .script(&format!("{clear}; ln -sf /dev/full check.txt"))
        .done();
    assert_eq!(folder.script(&script).status, 3);
    assert_eq!(folder.script(left).done(), "");
    // so does a sheet that is cut off
    folder
        .script(&format!("{clear}; printf '3 4\\n3 0' > week.txt"))
        .done();
    let said = folder.script(&script);
    assert_eq!((said.status, said.said.len()), (1, 0));
    assert_eq!(folder.script(left).done(), "");
}

/// The read-me's sample, and its payslip of two amounts.
#[test]
fn the_examples_of_the_read_me() {
    let readme = page("README.md");
    let main = block(&readme, "## Two commands")[0];
    let (_, command) = main.rsplit_once("rust/target/release/").unwrap();
    let root = project("");
    let folder = Folder::new("read-me");
    let said = folder.script(&format!("cd {} && {command}", root.display()));
    let said = said.done();
    let said: Vec<&str> = said.lines().collect();
    let shown = block(&readme, "It prints the 48 control figures");
    assert_eq!((said.len(), said[0], said[48]), (49, shown[0], shown[2]));

    folder.file("slip.txt", "2 1\n3 2\n");
    folder.file("bank.keys", "1000\n3 5\n");
    let mut lines = 0;
    for line in block(&readme, "At the command line") {
        let (command, comment) = line.split_once('#').unwrap_or((line, ""));
        let said = folder.script(command).done();
        let said = said.trim_end().replace('\n', ", then ");
        assert_eq!(said, comment.trim(), "{command}");
        lines += 1;
    }
    assert!(lines >= 4);
}

/// What stands between backticks in some lines.
fn quoted(lines: &str) -> Vec<&str> {
    lines.split('`').skip(1).step_by(2).collect()
}

#[test]
fn every_source_that_a_page_names() {
    let mut named = 0;
    for name in [
        "DECISIONS",
        "DEMANDS",
        "DESIGN",
        "LIBRARIES",
        "NOTES",
        "SPEC",
        "TRIALS",
    ] {
        let page = page(&format!("docs/{name}.md"));
        let whole = |path: &&str| path.starts_with("crates/") && !path.contains(['*', '…']);
        for path in quoted(&page).into_iter().filter(whole) {
            assert!(project(path).exists(), "{name}: {path}");
            named += 1;
        }
    }
    assert!(named > 100, "{named} sources named");
}

/// Each entry point has its contract in a file of its row, and each worthless version its edit.
#[test]
fn contracts_and_edits_of_the_demands() {
    let demands = page("docs/DEMANDS.md");
    let rows = |words: &str| -> Vec<Vec<Vec<String>>> {
        let (_, table) = demands.split_once(words).unwrap();
        let rows = table.lines().skip(2);
        let rows = rows.take_while(|line| line.starts_with('|'));
        rows.map(|row| {
            let cells = row.split('|').skip(1);
            cells
                .map(|cell| quoted(cell).into_iter().map(String::from).collect())
                .collect()
        })
        .collect()
    };
    let entries = rows("| entry point | contract in | rule |");
    for [names, files] in entries.iter().map(|row| [&row[0], &row[1]]) {
        let code: String = files.iter().map(|file| page(file)).collect();
        for name in names.iter().filter(|name| !name.contains('…')) {
            let function = [format!("pub fn {name}("), format!("pub fn {name}<")];
            let stands = function.iter().any(|words| code.contains(words));
            assert!(stands, "{name} in {files:?}");
        }
    }
    let versions = rows("| version | edit |");
    assert!(entries.len() > 9 && versions.len() > 7);
    for edit in versions.iter().flat_map(|row| &row[1]) {
        if let Some((name, label)) = edit.split_once('/') {
            page(&format!("crates/{name}/must-fail/{label}.edit"));
        }
    }
}
