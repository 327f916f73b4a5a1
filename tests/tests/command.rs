//! The command against the reference: every subcommand, what it writes, and its exit status.
use spoutbasket_tests::command::{
    count, counts, spoutbasket, Folder, COMMANDS, PASSED, WEEK, WEEK_AMOUNTS,
};
use spoutbasket_tests::compiler::methods;
use spoutbasket_tests::random::{bases, job, modulus, Random};
use spoutbasket_tests::reference::{self, figure, Job, LONGEST_FILE, MOST_PAYSLIPS};
use spoutbasket_tests::reference::{EDITION_STEPS, EDITION_VALUES};
use spoutbasket_tests::texts::phrase;

/// A sheet as a person might write it.
fn plain(r: &mut Random, job: &Job) -> String {
    let mut text = format!("{} {}\n", job.p, job.q);
    for (i, amount) in job.amounts.iter().enumerate() {
        text += &"0".repeat(r.below(3));
        text += &amount.to_string();
        let ends_payslip = (i + 1) % job.p == 0;
        text += match (ends_payslip, r.below(4)) {
            (true, 0) => "\r\n",
            (true, _) => "\n",
            (false, 0) => "\t",
            (false, 1) => "  ",
            _ => " ",
        };
    }
    text + "\n"
}

/// The same sheet as a table, with or without names.
fn table(r: &mut Random, job: &Job) -> String {
    let separator = r.pick(&["\t", ";", ",", " ", " ; ", ", "]);
    let end = r.pick(&["\n", "\r\n"]);
    let line = |fields: Vec<String>| fields.join(separator) + end;
    let mut text = r.pick(&["", "\u{feff}"]).to_string();
    if r.one_in(2) {
        let names = ["basic", "overtime", "bonus", "fares", "tax", "pension"];
        text += &line(names[..job.p].iter().map(|name| name.to_string()).collect());
    }
    for payslip in job.amounts.chunks(job.p) {
        text += &line(payslip.iter().map(u32::to_string).collect());
    }
    text
}

/// The file of the job's chain, or the refusal.
fn file_of(job: &Job) -> Result<Vec<u8>, (u32, u64)> {
    let (mut steps, mut outputs) = (vec![0; 2 * EDITION_STEPS], vec![0; MOST_PAYSLIPS]);
    let compiled = reference::compile(
        job.p,
        job.q,
        &job.amounts,
        job.method,
        job.parameter,
        &mut steps,
        &mut outputs,
    )?;
    let mut bytes = vec![0; LONGEST_FILE];
    let steps = &steps[..2 * compiled[0] as usize];
    let written = reference::write(job.p, steps, &outputs[..job.q], &mut bytes)?;
    bytes.truncate(written[0] as usize);
    Ok(bytes)
}

/// The job by the method with the fewest steps, the first of several.
fn best(job: &Job) -> Job {
    let all = methods(job.p).into_iter();
    let jobs = all.map(|(method, k)| Job::new(job.p, job.q, &job.amounts, method, k));
    jobs.min_by_key(Job::count).unwrap()
}

/// The lines of a run.
fn lines(job: &Job, m: u32, bases: &[u32]) -> String {
    let payslips = job.amounts.chunks(job.p);
    let figures = payslips.map(|payslip| format!("{}\n", figure(m, bases, payslip)));
    figures.collect::<String>() + &counts("multiplication", &job.counts()) + "\n"
}

#[test]
fn from_sheets_to_figures() {
    let mut r = Random(64);
    let folder = Folder::new("command");
    let mut refused = 0;
    for _ in 0..60 {
        let mut job = job(&mut r, 6, 8);
        match r.below(12) {
            0 => job.parameter = 9,
            1 => {
                job.amounts.pop();
            }
            _ => {}
        }
        let text = plain(&mut r, &job);
        let method = job.method_name();
        let compiled = spoutbasket(&["compile", "--method", &method], text.as_bytes());
        let file = match file_of(&job) {
            Ok(file) => file,
            Err((number, _)) => {
                refused += 1;
                let why = format!("standard input: refused {number}: {}", phrase(number));
                assert!(compiled.ended(1).starts_with(&why), "{text}");
                continue;
            }
        };
        assert_eq!((compiled.status, compiled.told.as_str()), (0, ""), "{text}");
        assert_eq!(compiled.said, file, "{text}");

        // the best chain, from the text and from a table
        let best = best(&job);
        let shortest = file_of(&best).unwrap();
        assert_eq!(spoutbasket(&["compile"], text.as_bytes()).said, shortest);
        let table = folder.file("table", table(&mut r, &job));
        assert_eq!(
            spoutbasket(&["compile", "--table", &table], b"").said,
            shortest
        );

        // the check, of this chain and of one for other amounts
        let sheet = folder.file("sheet", &text);
        let chain = folder.file("chain", &file);
        let (p, q, n) = (job.p, job.q, job.count());
        let steps = counts("step", &job.counts());
        assert_eq!(
            spoutbasket(&["check", &sheet, &chain], b"").done(),
            format!(
                "passed: {}, {}, {steps}\n",
                count(p, "column"),
                count(q, "payslip"),
            )
        );
        let mut other = Job::new(p, q, &job.amounts, 2, 1);
        let i = r.below(other.amounts.len());
        other.amounts[i] ^= 1;
        let wrong = folder.file("wrong", file_of(&other).unwrap());
        let (payslip, column) = (i / p + 1, i % p + 1);
        assert_eq!(
            spoutbasket(&["check", "--table", &table, &wrong], b"").ended(1),
            format!(
                "{wrong}: refused 14 at payslip {payslip}: {}: column {column} is another amount",
                phrase(14)
            )
        );

        // the choice between a wrong file and this one
        let chosen = spoutbasket(&["choose", &sheet, &wrong, &chain], b"");
        assert_eq!((chosen.status, &chosen.said), (0, &file));

        // the amounts read back
        let listed = spoutbasket(&["list", &chain], b"").done();
        assert_eq!(listed, reference::listing(&file));
        let verbose = spoutbasket(&["list", "-v", &chain], b"");
        let width = reference::extent(p, q, n).unwrap()[0];
        let bytes = count(file.len(), "byte");
        let last = p + n;
        let told = format!("{chain}: p + n is {last}, W is {width}, {bytes}; {steps}");
        assert_eq!((verbose.status, verbose.line()), (0, told));
        assert_eq!(verbose.said, listed.as_bytes());

        // a receiver's run
        let m = modulus(&mut r);
        let bases = bases(&mut r, p, m);
        let mut numbers = vec![m.to_string()];
        numbers.extend(bases.iter().map(u32::to_string));
        let keys = folder.file("keys", numbers.join(" ") + "\n");
        let run = spoutbasket(&["run", "--keys", &keys, &chain], b"").done();
        assert_eq!(run, lines(&job, m, &bases));
        let figures = spoutbasket(&["figures", "--keys", &keys], text.as_bytes()).done();
        assert_eq!(figures, lines(&best, m, &bases));
        let named = ["figures", "--table", "--keys", &keys, "--method", &method];
        let figures = spoutbasket(&[&named[..], &[&table]].concat(), b"").done();
        assert_eq!(figures, run);
    }
    assert!(refused > 3);
}

/// Whatever the bytes are, the end is a result or one line.
#[test]
fn any_bytes() {
    let mut r = Random(7);
    let folder = Folder::new("bytes");
    let sheet = folder.file("sheet", WEEK);
    let chain = folder.path("chain");
    spoutbasket(&["compile", &sheet, "-o", &chain], b"").done();
    let mut ends = [0; 2];
    for _ in 0..60 {
        let length = r.pick(&[0, 3, 4, 7, 20, 300]);
        let telling = r.one_in(2);
        let byte = |r: &mut Random| match telling {
            true => r.pick(b"0123 \n\t\r;,.-x"),
            false => r.word() as u8,
        };
        let random = (0..length).map(|_| byte(&mut r));
        let bytes: Vec<u8> = random.chain([b'\n']).collect();
        let other = folder.file("other", &bytes);
        for arguments in [
            vec!["compile", "-"],
            vec!["compile", "--table", "-"],
            vec!["ceiling", "-"],
            vec!["ceiling", "--table", "-"],
            vec!["check", &sheet, "-"],
            vec!["check", "--table", "-", &other],
            vec!["check", &sheet, "-", &other],
            vec!["check", "--table", "-", &other, &other],
            vec!["choose", "-", &other, &other],
            vec!["compile", "--packed", "1,1", "-"],
            vec!["check", "--packed", "3,1,20", &other, "-", &chain],
            vec!["unpack", "--packed", "2,2", "-"],
            vec!["pack", "-"],
            vec!["pack", "--table", "-"],
            vec!["pool", "-", &chain],
            vec!["pool", &chain, "-"],
            vec!["list", "-"],
            vec!["run", "--keys", "-", &other],
            vec!["figures", "--keys", "-", &sheet],
            vec!["figures", "--keys", &other, "--table", "-"],
        ] {
            let ended = spoutbasket(&arguments, &bytes);
            let refused = ended.status != 0;
            match refused {
                false => assert_eq!(ended.told, "", "{bytes:?}"),
                true => assert!(ended.ended(1).contains(": refused "), "{bytes:?}"),
            }
            ends[refused as usize] += 1;
        }
    }
    assert!(ends.iter().all(|&seen| seen > 0), "{ends:?}");
}

/// Every bit of a chain's file turned: it passes where the reference says so.
#[test]
fn every_bit() {
    let folder = Folder::new("bits");
    let sheet = folder.file("sheet", WEEK);
    let file = file_of(&best(&Job::new(3, 4, &WEEK_AMOUNTS, 1, 1))).unwrap();
    let scratch = (EDITION_STEPS, MOST_PAYSLIPS, EDITION_VALUES);
    for bit in 0..8 * file.len() {
        let mut turned = file.clone();
        turned[bit / 8] ^= 0x80 >> (bit % 8);
        let judged = reference::choose(3, 4, &WEEK_AMOUNTS, &turned, &[], scratch);
        let checked = spoutbasket(&["check", &sheet, "-"], &turned);
        match judged {
            Ok(_) => assert_eq!(checked.status, 0, "{bit}"),
            Err((number, _)) => {
                let why = format!("standard input: refused {number}");
                assert!(checked.ended(1).starts_with(&why), "{bit}");
            }
        }
    }
}

/// The sample of the read-me.
#[test]
fn sheet_31() {
    let folder = Folder::new("sheet-31");
    let sheet = concat!(env!("CARGO_MANIFEST_DIR"), "/../samples/sheet-31.txt");
    let chain = folder.path("31.chain");
    let compiled = spoutbasket(&["compile", "-v", "-o", &chain, sheet], b"");
    assert_eq!((compiled.status, compiled.said.len()), (0, 0));
    let steps = "1555 steps: 141 squarings, 1414 products";
    assert_eq!(compiled.line(), format!("{sheet}: partition:4, {steps}"));
    let checked = spoutbasket(&["check", sheet, &chain], b"").done();
    assert_eq!(
        checked,
        format!("passed: 9 columns, 48 payslips, {steps}\n")
    );
}

#[test]
fn one_object_on_one_line() {
    let folder = Folder::week("json");
    folder.file("few.keys", "10000 3 5\n");
    let said = folder.script(
        "spoutbasket check --json week.txt week.chain
        spoutbasket list --json week.chain
        spoutbasket run --json --keys bank.keys week.chain
        spoutbasket figures --json --keys bank.keys week.txt
        spoutbasket list --json week.txt 2> why || echo $?
        spoutbasket figures --json --keys few.keys week.txt 2>> why || echo $?
        spoutbasket check --json --table week.txt week.chain 2>> why || echo $?
        printf '1 1 1\\n' | spoutbasket check --json - week.chain 2>> why || echo $?
        printf '3 4 3 0 3 1 2 0 0 0 2 3 2 1\\n' | spoutbasket check --json - week.chain 2>> why || echo $?",
    );
    let refused = |rest: &str, number| {
        let phrase = phrase(number);
        format!("{{\"refused\":{{\"number\":{number},{rest}\"phrase\":\"{phrase}\"}}}}\n1\n")
    };
    let expected = [
        "{\"passed\":true,\"columns\":3,\"payslips\":4,\"steps\":9,\"squarings\":3,\"products\":6}\n",
        "{\"columns\":3,\"payslips\":4,\"steps\":9,\"squarings\":3,\"products\":6,\"amounts\":[[3,0,2],[1,2,0],[0,0,2],[3,2,1]]}\n",
        "{\"figures\":[1323,75,49,4725],\"multiplications\":9,\"squarings\":3,\"products\":6}\n",
        "{\"method\":\"yao:1\",\"figures\":[1323,75,49,4725],\"multiplications\":9,\"squarings\":3,\"products\":6}\n",
        &refused("", 7),
        &refused("", 16),
        &refused("\"line\":2,\"column\":6,", 104),
        &refused("", 14),
        &refused("\"payslip\":1,", 14),
    ];
    assert_eq!(said.done(), expected.concat());
    let why = std::fs::read_to_string(folder.path("why")).unwrap();
    let starts: Vec<&str> = why
        .lines()
        .map(|line| line.split(": ").nth(1).unwrap())
        .collect();
    assert_eq!(
        starts,
        [
            "week.txt",
            "few.keys",
            "week.txt",
            "week.chain",
            "week.chain"
        ]
    );
}

/// Each file that can be chosen, and the first one's refusal where none can.
#[test]
fn choices() {
    let folder = Folder::new("choose");
    let sheet = folder.file("sheet", "2 1\n3 2\n");
    let job = |method, parameter| Job::new(2, 1, &[3, 2], method, parameter);
    let good = folder.file("good", file_of(&job(1, 1)).unwrap());
    let again = folder.file("again", file_of(&job(1, 1)).unwrap());
    let long = folder.file("long", file_of(&job(2, 1)).unwrap());
    let wide = folder.file("wide", file_of(&Job::new(3, 1, &[3, 2, 0], 2, 1)).unwrap());
    let bad = folder.file("bad", "old");
    for (first, second, chosen) in [
        (&good, &long, &good),
        (&long, &good, &good),
        (&good, &again, &good),
        (&again, &good, &again),
        (&bad, &long, &long),
        (&long, &bad, &long),
        (&wide, &long, &long),
        (&long, &wide, &long),
    ] {
        let said = spoutbasket(&["choose", "-v", &sheet, first, second], b"");
        assert_eq!((said.status, said.line()), (0, format!("{chosen}: taken")));
        assert_eq!(said.said, std::fs::read(chosen).unwrap());
    }
    for (first, second, why) in [
        (&bad, &wide, format!("6: {}: 3 bytes", phrase(6))),
        (
            &wide,
            &bad,
            format!("14: {}: the chain has 3 columns, the sheet 2", phrase(14)),
        ),
    ] {
        let target = folder.path("none");
        let said = spoutbasket(&["choose", &sheet, first, second, "-o", &target], b"");
        assert_eq!(said.ended(1), format!("{first}: refused {why}"));
        assert!(!std::path::Path::new(&target).exists());
    }
}

/// Names that are standard streams, names that look like options, and options in any place.
#[test]
fn names() {
    let folder = Folder::week("names");
    let said = folder.script(
        "set -euo pipefail
        spoutbasket compile < week.txt | cat > 1.chain
        spoutbasket compile - -o - < week.txt | cat > 2.chain
        spoutbasket compile -o /dev/stdout week.txt | cat > 3.chain
        spoutbasket compile week.txt > 4.chain
        spoutbasket compile week.txt -o 5.chain
        spoutbasket compile -o -- week.txt 2> why && exit 1
        cp week.txt ./-week; cp week.txt ./--table
        spoutbasket compile -o 6.chain -- -week
        spoutbasket compile -o 7.chain -- --table
        for n in 1 2 3 4 5 6 7; do cmp week.chain $n.chain; done
        cp week.txt $'\\xff.txt'; spoutbasket check $'\\xff.txt' 1.chain > odd; rm $'\\xff.txt'
        spoutbasket check - 1.chain < week.txt
        spoutbasket check week.txt - < 1.chain
        for name in /dev/stdin /dev/fd/0 /proc/self/fd/0; do
            spoutbasket check $name - 2>> why < week.txt || echo $?
            spoutbasket check $name 1.chain > odd < week.txt
        done
        spoutbasket check /dev/stdin 1.chain --json < week.txt
        spoutbasket list < 1.chain | head -n 1
        spoutbasket run --keys=bank.keys < 1.chain | head -n 1
        spoutbasket run 1.chain --keys - < bank.keys | head -n 1
        spoutbasket figures week.txt --keys - < bank.keys | tail -n 1
        { cat bank.keys; } | spoutbasket figures --keys - -- week.txt | tail -n 1",
    );
    let object = "{\"passed\":true,\"columns\":3,\"payslips\":4,\"steps\":9,\"squarings\":3,\"products\":6}\n";
    let made = "9 multiplications: 3 squarings, 6 products\n";
    let run = format!("1323\n1323\n{made}{made}");
    let twice = "2\n".repeat(3);
    assert_eq!(
        said.done(),
        format!("{PASSED}{PASSED}{twice}{object}3 4 9\n{run}")
    );
    // a name that would break the line
    let odd = folder.path("two\nlines\u{1b}");
    let line = spoutbasket(&["list", &odd], b"").ended(3);
    let shown = folder.path("two\\nlines\\u{1b}");
    assert_eq!(
        line,
        format!("{shown}: No such file or directory (os error 2)")
    );
}

#[test]
fn helps() {
    let overview = spoutbasket(&["--help"], b"").done();
    for word in ["help", "-h"] {
        assert_eq!(spoutbasket(&[word], b"").done(), overview);
    }
    for name in COMMANDS {
        let help = spoutbasket(&["help", name], b"").done();
        assert!(
            help.starts_with(&format!("Usage: spoutbasket {name} ")),
            "{help}"
        );
        assert!(help.contains("\nExample: "), "{help}");
        for option in ["--help", "-h"] {
            assert_eq!(spoutbasket(&[name, "-", option], b"").done(), help);
        }
        assert!(overview.contains(&format!("\n  {name} ")), "{overview}");
    }
    for word in ["--version", "-V"] {
        let version = spoutbasket(&[word], b"").done();
        assert_eq!(version, format!("spoutbasket {}\n", spoutbasket::VERSION));
    }
    // a file's name
    let line = spoutbasket(&["list", "--", "--help"], b"").ended(3);
    assert_eq!(line, "--help: No such file or directory (os error 2)");
}

/// A command knows the options of its synopsis and no others.
#[test]
fn options() {
    let options = [
        "--best", "--method", "--table", "--packed", "-o", "-v", "--keys", "--json",
    ];
    for name in COMMANDS {
        let help = spoutbasket(&["help", name], b"").done();
        let usage = help.lines().next().unwrap();
        let words: Vec<&str> = usage.split([' ', '[', ']']).collect();
        for option in options {
            let told = spoutbasket(&[name, option], b"").told;
            let known = !told.contains("unknown option");
            assert_eq!(known, words.contains(&option), "{usage}: {told}");
            // and says what each is for
            let line = |line: &str| line.trim_start().starts_with(option);
            assert_eq!(known, help.lines().skip(1).any(line), "{help}");
        }
    }
}

/// Wrong uses: status 2, nothing said, one line, and no word of it repeated, since it may be a secret.
#[test]
fn wrong_uses() {
    let folder = Folder::new("usage");
    let sheet = &folder.file("sheet", "1 1\n1\n");
    let chain = &folder.path("chain");
    let other = &folder.path("other");
    for chain in [chain, other] {
        spoutbasket(&["compile", sheet, "-o", chain], b"").done();
    }
    let parts = std::fs::read(chain).unwrap();
    let keys = &folder.file("keys", "10 3\n");
    for (arguments, why) in [
        (vec![], "a command is wanted"),
        (vec!["52431"], "no such command"),
        (vec!["--modulus=52431"], "unknown option"),
        (vec!["--json", "list"], "unknown option --json"),
        (vec!["help", "52431"], "no such command"),
        (vec!["help", "list", "run"], "too many words"),
        (vec!["--version", "list"], "too many words"),
        (vec!["list", "--table"], "list: unknown option --table"),
        (vec!["list", "-52431"], "list: unknown option"),
        (vec!["list", "--json", "--json"], "list: --json given twice"),
        (vec!["list", "--json=yes"], "list: --json takes no value"),
        (vec!["list", chain, chain], "list: more than 1 file"),
        (vec!["check", sheet], "check: 2 files wanted"),
        (
            vec!["check", sheet, sheet, chain, chain],
            "check: more than 3 files",
        ),
        (
            vec!["check", "-", "-"],
            "check: standard input for two files",
        ),
        (
            vec!["check", "-", "-", chain],
            "check: standard input for two files",
        ),
        (
            vec!["check", sheet, "-", "-"],
            "check: standard input for two files",
        ),
        (vec!["choose", sheet, chain], "choose: 3 files wanted"),
        (
            vec!["choose", sheet, "-", "-"],
            "choose: standard input for two files",
        ),
        (
            vec!["choose", sheet, chain, chain, "-o", sheet],
            "choose: -o names the sheet itself",
        ),
        (vec!["pool", chain], "pool: 2 files wanted"),
        (vec!["pool", chain, chain, chain], "pool: more than 2 files"),
        (vec!["pool", "-", "-"], "pool: standard input for two files"),
        (
            vec!["pool", "--table", chain, chain],
            "pool: unknown option --table",
        ),
        (
            vec!["pool", chain, other, "-o", chain],
            "pool: -o names a part itself",
        ),
        (
            vec!["pool", chain, other, "-o", other],
            "pool: -o names a part itself",
        ),
        (vec!["run", chain], "run: --keys FILE wanted"),
        (vec!["run", "--keys"], "run: --keys needs a value"),
        (vec!["run", "--keys="], "run: --keys needs a value"),
        (vec!["run", "--keys", "--json"], "run: --keys needs a value"),
        (
            vec!["run", "--keys", keys, "--keys", keys],
            "run: --keys given twice",
        ),
        (
            vec!["run", "--keys", "-"],
            "run: standard input for two files",
        ),
        (
            vec!["run", "--keys", keys, chain, "52431", "17"],
            "run: more than 1 file",
        ),
        (vec!["run", chain, "52431", "17"], "run: more than 1 file"),
        (
            vec!["run", "--keys", keys, "--base=17", chain],
            "run: unknown option --base",
        ),
        (vec!["figures", sheet], "figures: --keys FILE wanted"),
        (
            vec!["figures", "--keys", "-"],
            "figures: standard input for two files",
        ),
        (
            vec!["figures", "--keys", keys, sheet, "52431", "17"],
            "figures: more than 1 file",
        ),
        (
            vec!["figures", "--keys", keys, "--best", sheet],
            "figures: unknown option --best",
        ),
        (
            vec!["compile", "--best", "--method", "yao:1", sheet],
            "compile: --best and --method are two methods",
        ),
        (
            vec!["compile", "--method", "52431", sheet],
            "compile: --method takes straus:K, yao:K or partition:C",
        ),
        (
            vec!["compile", "--method", "yao:", sheet],
            "compile: --method takes straus:K, yao:K or partition:C",
        ),
        (
            vec!["compile", "--method", "yao:+1", sheet],
            "compile: --method takes straus:K, yao:K or partition:C",
        ),
        (
            vec!["compile", "-o", chain, "-o", chain, sheet],
            "compile: -o given twice",
        ),
        (
            vec!["compile", "-v", "--verbose", sheet],
            "compile: --verbose given twice",
        ),
        (
            vec!["compile", sheet, "-o", sheet],
            "compile: -o names the sheet itself",
        ),
    ] {
        let command = match arguments.first() {
            Some(name) if why.starts_with(name) => format!("help {name}"),
            _ => "--help".to_string(),
        };
        let line = spoutbasket(&arguments, b"").ended(2);
        assert_eq!(
            line,
            format!("{why}; see `spoutbasket {command}`"),
            "{arguments:?}"
        );
        assert!(!line.contains("52431") && !line.contains("17"), "{line}");
    }
    assert_eq!(std::fs::read(sheet).unwrap(), b"1 1\n1\n");
    for chain in [chain, other] {
        assert_eq!(std::fs::read(chain).unwrap(), parts);
    }
}
