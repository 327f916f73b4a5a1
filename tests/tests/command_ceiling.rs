//! The ceiling by the command: a line for each method and parameter that the columns allow, for every kind of sheet, as a text and as an object; and what
//! it turns down.
use spoutbasket_tests::command::{packed, sheet_text, spoutbasket, Folder, WEEK};
use spoutbasket_tests::compiler::jobs;
use spoutbasket_tests::random::{sheet, Random};
use spoutbasket_tests::reference::{Job, MOST_COLUMNS, MOST_PAYSLIPS, MOST_STEPS};
use spoutbasket_tests::texts::phrase;

fn lines(jobs: &[Job]) -> String {
    let line = |job: &Job| format!("{} {} {}\n", job.method_name(), job.count(), job.ceiling());
    jobs.iter().map(line).collect()
}

fn object(jobs: &[Job]) -> String {
    let Job { p, q, .. } = jobs[0];
    let method = |job: &Job| {
        let (name, count, ceiling) = (job.method_name(), job.count(), job.ceiling());
        format!("{{\"method\":\"{name}\",\"count\":{count},\"ceiling\":{ceiling}}}")
    };
    let methods: Vec<String> = jobs.iter().map(method).collect();
    let methods = methods.join(",");
    format!("{{\"columns\":{p},\"payslips\":{q},\"methods\":[{methods}]}}\n")
}

#[test]
fn every_kind_of_sheet() {
    let mut r = Random(93);
    let folder = Folder::new("ceiling");
    for _ in 0..30 {
        let (p, q) = (r.within(1, 12), r.within(1, 9));
        // no amount that a field does not hold
        let bits = r.below(30);
        let amounts = sheet(&mut r, p, q, bits);
        let jobs = jobs(p, q, &amounts);
        let one = &jobs[r.below(jobs.len())..][..1];
        let method = one[0].method_name();
        let sizes = format!("{p},{q}");
        for (kind, bytes) in [
            (vec![], sheet_text(p, &amounts, false).into_bytes()),
            (vec!["--table"], sheet_text(p, &amounts, true).into_bytes()),
            (vec!["--packed", &sizes], packed(p, &amounts)),
        ] {
            let file = folder.file("sheet", &bytes);
            let said = |options: &[&str]| {
                let words = [&["ceiling"][..], &kind, options].concat();
                let said = spoutbasket(&[&words[..], &[&file]].concat(), b"").done();
                // and from standard input
                assert_eq!(spoutbasket(&words, &bytes).done(), said);
                said
            };
            assert_eq!(said(&[]), lines(&jobs));
            assert_eq!(said(&["--json"]), object(&jobs));
            assert_eq!(said(&["--method", &method]), lines(one));
            assert_eq!(said(&["--json", "--method", &method]), object(one));
        }
    }
}

/// The tariff's example, and chains that are too long, which are told here and refused by compile.
#[test]
fn short_groups_and_long_chains() {
    let partition = ["ceiling", "--method", "partition:4"];
    assert_eq!(
        spoutbasket(&partition, b"1 1 16\n").done(),
        "partition:4 15 16\n"
    );
    let amounts = [u32::MAX; MOST_COLUMNS * MOST_PAYSLIPS];
    let text = sheet_text(MOST_COLUMNS, &amounts, false);
    let jobs = jobs(MOST_COLUMNS, MOST_PAYSLIPS, &amounts);
    let said = spoutbasket(&["ceiling"], text.as_bytes()).done();
    assert_eq!(said, lines(&jobs));
    let mut too_long = 0;
    for job in jobs {
        let words = ["compile", "--method", &job.method_name()];
        let compiled = spoutbasket(&words, text.as_bytes());
        let refused = job.count() > MOST_STEPS;
        assert_eq!(compiled.status, refused as i32, "{}", job.method_name());
        too_long += refused as usize;
    }
    assert!(too_long > 8, "{too_long} chains were too long");
}

/// The refusals of the method and of the sheet, as a line and as an object.
#[test]
fn refused() {
    let wide = format!("11 1\n{}\n", "1 ".repeat(11));
    let straus = "method straus takes k from 1 to 5 with p times k at most 10";
    let yao = "method yao takes k from 1 to 8";
    let partition = "method partition takes c from 1 to 8";
    let short = "1 found, 2 wanted";
    let refused = |options: &[&str], text: &str, number, place: &[(&str, usize)], found: &str| {
        let phrase = phrase(number);
        let words: Vec<String> = place
            .iter()
            .map(|(what, at)| format!("{what} {at}"))
            .collect();
        let at = match place {
            [] => String::new(),
            _ => format!(" at {}", words.join(", ")),
        };
        let why = format!("standard input: refused {number}{at}: {phrase}: {found}");
        let words = [&["ceiling"], options].concat();
        assert_eq!(spoutbasket(&words, text.as_bytes()).ended(1), why);
        let ended = spoutbasket(&[&words[..], &["--json"]].concat(), text.as_bytes());
        assert_eq!((ended.status, ended.line()), (1, why));
        let fields = place.iter().map(|(what, at)| format!("\"{what}\":{at},"));
        let fields: String = fields.collect();
        let object = format!("{{\"number\":{number},{fields}\"phrase\":\"{phrase}\"}}");
        let said = String::from_utf8(ended.said).unwrap();
        assert_eq!(said, format!("{{\"refused\":{object}}}\n"));
    };
    refused(&["--method", "straus:1"], &wide, 3, &[], straus);
    refused(&["--method", "yao:9"], WEEK, 3, &[], yao);
    refused(&["--method", "partition:0"], WEEK, 3, &[], partition);
    refused(&[], "2 1\n3\n", 2, &[], short);
    // the sheet is looked at before the parameter
    refused(&["--method", "yao:9"], "2 1\n3\n", 2, &[], short);
    refused(&[], "17 1\n", 1, &[], "p is 17, at most 16");
    let place = [("line", 2), ("column", 3)];
    refused(&["--table"], "3;2\n1;-4\n", 106, &place, "'-'");
    // what the columns do not allow is left out where it is not asked for
    let said = spoutbasket(&["ceiling"], wide.as_bytes()).done();
    assert!(said.starts_with("yao:1 "), "{said}");
    assert_eq!(said.lines().count(), 16);
}

#[test]
fn wrong_uses() {
    let folder = Folder::week("ceiling-usage");
    let sheet = &folder.path("week.txt");
    for (words, why) in [
        (
            vec!["--method", "52431", sheet],
            "--method takes straus:K, yao:K or partition:C",
        ),
        (vec!["--method"], "--method needs a value"),
        (vec!["--best", sheet], "unknown option --best"),
        (vec!["-o", "52431", sheet], "unknown option -o"),
        (vec!["-v", sheet], "unknown option --verbose"),
        (vec!["--json", "--json", sheet], "--json given twice"),
        (vec!["--packed", "3", sheet], "--packed takes P,Q"),
        (
            vec!["--table", "--packed", "3,4", sheet],
            "--table and --packed are two kinds of sheet",
        ),
        (vec![sheet, sheet], "more than 1 file"),
    ] {
        let line = spoutbasket(&[&["ceiling"], &words[..]].concat(), b"").ended(2);
        assert_eq!(
            line,
            format!("ceiling: {why}; see `spoutbasket help ceiling`")
        );
    }
}
