//! Packed sheets by the command: read wherever a sheet is read, made plain, made packed; and what is told of fields that are refused, which is never an amount.
use spoutbasket_tests::command::{count, packed, sheet_text, spoutbasket, Folder, KEYS};
use spoutbasket_tests::command::{PASSED, WEEK, WEEK_AMOUNTS};
use spoutbasket_tests::random::{fields, Random};
use spoutbasket_tests::reference;
use spoutbasket_tests::texts::phrase;

/// The fields with another in the place of one, counted from 1.
fn with(fields: &[u8], place: usize, halves: u64) -> Vec<u8> {
    let mut fields = fields.to_vec();
    fields[5 * place - 5..5 * place].copy_from_slice(&halves.to_be_bytes()[3..]);
    fields
}

/// Fields to a plain sheet and back, and everywhere in a plain sheet's place: the same chains, checks and figures.
#[test]
fn in_the_place_of_a_plain_sheet() {
    let mut r = Random(75);
    let folder = Folder::new("packed");
    let (chain, target) = (folder.path("chain"), folder.path("target"));
    let mut unsigned = 0;
    for _ in 0..40 {
        let (p, q) = (r.within(1, 5), r.within(1, 6));
        let bytes = fields(&mut r, p, q);
        let mut amounts = vec![0; p * q];
        reference::unpack(p, q, &bytes, &mut amounts).unwrap();
        let plain = sheet_text(p, &amounts, false);
        let with_plus = packed(p, &amounts);
        unsigned += (with_plus != bytes) as usize;
        let (sheet, file) = (folder.file("sheet", &plain), folder.file("fields", &bytes));
        let sizes = format!("{p},{q}");
        let option = ["--packed", &sizes];

        // to the plain sheet: to standard output, to a file, from standard input
        let unpack = ["unpack", "--packed", &sizes];
        for (more, input) in [
            (vec![&file[..]], &b""[..]),
            (vec![], &bytes),
            (vec!["-", "-o", "-"], &bytes),
        ] {
            assert_eq!(
                spoutbasket(&[&unpack[..], &more].concat(), input).done(),
                plain
            );
        }
        let to = [&unpack[..], &["-o", &target, &file]].concat();
        spoutbasket(&to, b"").done();
        assert_eq!(std::fs::read_to_string(&target).unwrap(), plain);
        // and back: of the plain sheet, of a table, of the fields themselves
        let table = folder.file("table", sheet_text(p, &amounts, true));
        for arguments in [
            vec!["pack", &sheet],
            vec!["pack", "--table", &table],
            vec!["pack", option[0], option[1], &file],
        ] {
            assert_eq!(spoutbasket(&arguments, b"").said, with_plus);
            std::fs::remove_file(&target).unwrap();
            let to = [&arguments[..], &["-o", &target]].concat();
            assert_eq!(spoutbasket(&to, b"").done(), "");
            assert_eq!(std::fs::read(&target).unwrap(), with_plus);
        }
        assert_eq!(spoutbasket(&["pack"], plain.as_bytes()).said, with_plus);
        let verbose = format!("{}, {}", count(p, "column"), count(q, "payslip"));
        for (arguments, name) in [
            ([&to[..], &["-v"]].concat(), &file),
            (vec!["pack", "-v", &sheet, "-o", &target], &sheet),
        ] {
            let said = spoutbasket(&arguments, b"");
            assert_eq!((said.status, said.said.len()), (0, 0));
            assert_eq!(said.line(), format!("{name}: {verbose}"));
        }

        // the same words with the sheet and with the fields: the same bytes
        spoutbasket(&["compile", &sheet, "-o", &chain], b"").done();
        let keys = folder.file("keys", format!("65537{}\n", " 3".repeat(p)));
        for arguments in [
            vec!["compile", "SHEET"],
            vec!["compile", "--method", "yao:2", "SHEET"],
            vec!["ceiling", "SHEET"],
            vec!["ceiling", "--json", "--method", "partition:4", "SHEET"],
            vec!["check", "SHEET", &chain],
            vec!["check", "--json", "SHEET", &chain],
            vec!["choose", "SHEET", &chain, &chain],
            vec!["figures", "--keys", &keys, "SHEET"],
            vec!["figures", "--json", "--keys", &keys, "SHEET"],
        ] {
            let named = |name: &str| -> Vec<String> {
                let words = arguments.iter().map(|word| word.replace("SHEET", name));
                words.collect()
            };
            let say = |words: Vec<String>, more: &[&str], input: &[u8]| {
                let words: Vec<&str> = words.iter().map(String::as_str).collect();
                let said = spoutbasket(&[&words[..], more].concat(), input);
                assert_eq!((said.status, said.told.as_str()), (0, ""), "{words:?}");
                said.said
            };
            let expected = say(named(&sheet), &[], b"");
            assert_eq!(say(named(&file), &option, b""), expected, "{arguments:?}");
            assert_eq!(say(named("-"), &option, &bytes), expected, "{arguments:?}");
        }
    }
    assert!(unsigned > 30, "{unsigned} sheets had a sign F");
}

/// Two packed sheets, each with its own number of payslips, and the pool of their chains.
#[test]
fn two_packed_sheets() {
    let folder = Folder::new("two-packed");
    let sheets = [
        folder.file("a", packed(2, &[3, 0, 1, 2, 7, 7])),
        folder.file("b", packed(2, &[5, 6])),
    ];
    let chains = ["a.chain", "b.chain"].map(|name| folder.path(name));
    for i in [0, 1] {
        let sizes = ["2,3", "2,1"][i];
        let to = ["-o", &chains[i]];
        spoutbasket(
            &[&["compile", "--packed", sizes, &sheets[i]], &to[..]].concat(),
            b"",
        )
        .done();
    }
    let pool = folder.path("pool.chain");
    spoutbasket(&["pool", &chains[0], &chains[1], "-o", &pool], b"").done();
    let [a, b] = &sheets;
    let check = |sizes: &str, first: &str, second: &str, input: &[u8]| {
        spoutbasket(&["check", "--packed", sizes, first, second, &pool], input)
    };
    let passed = check("2,3,1", a, b, b"").done();
    assert!(passed.starts_with("passed: 2 columns, 4 payslips, "));
    assert_eq!(check("2,3,1", a, "-", &packed(2, &[5, 6])).done(), passed);
    // the second sheet's payslips are those of the second number
    let why = format!("refused 2: {}: 30 bytes found, 10 wanted", phrase(2));
    assert_eq!(check("2,1,3", a, b, b"").ended(1), format!("{a}: {why}"));
    let why = format!("refused 2: {}: 10 bytes found, 20 wanted", phrase(2));
    assert_eq!(check("2,3,2", a, b, b"").ended(1), format!("{b}: {why}"));
    let other = check("2,3,1", a, "-", &packed(2, &[5, 7])).ended(1);
    let why = format!(
        "refused 14 at payslip 4: {}: column 2 is another amount; payslip 1 of standard input",
        phrase(14)
    );
    assert_eq!(other, format!("{pool}: {why}"));
    // a field's number is that of its own sheet
    let unfit = with(&packed(2, &[5, 6]), 2, 0x000000006D);
    let why = format!("refused 19 at field 2, payslip 1, column 2: {}", phrase(19));
    assert_eq!(
        check("2,3,1", a, "-", &unfit).ended(1),
        format!("standard input: {why}")
    );
    let (many, more) = (packed(1, &[1; 64]), folder.file("more", packed(1, &[1])));
    let why = format!("refused 1: {}: 65 payslips together, at most 64", phrase(1));
    assert_eq!(
        check("1,64,1", "-", &more, &many).ended(1),
        format!("standard input and {more}: {why}")
    );
}

/// What is refused of packed fields, by each command that reads a sheet, with an old file at the target, which stays.
#[test]
fn refused_fields() {
    let folder = Folder::new("refused-fields");
    let chain = folder.path("week.chain");
    spoutbasket(&["compile", "-o", &chain], WEEK.as_bytes()).done();
    let keys = folder.file("bank.keys", KEYS);
    let target = folder.file("target", "old");
    let refused = |sizes: &str, bytes: &[u8], number: u32, at: &str, found: &str, place: &str| {
        let phrase = phrase(number);
        let why = format!("refused {number}{at}: {phrase}{found}");
        let file = folder.file("fields", bytes);
        for arguments in [
            vec!["compile", &file, "-o", &target],
            vec!["ceiling", &file],
            vec!["check", &file, &chain],
            vec!["choose", &file, &chain, &chain, "-o", &target],
            vec!["figures", "--keys", &keys, &file],
            vec!["unpack", &file, "-o", &target],
            vec!["pack", &file, "-o", &target],
        ] {
            let line = spoutbasket(&[&arguments[..], &["--packed", sizes]].concat(), b"").ended(1);
            assert_eq!(line, format!("{file}: {why}"), "{arguments:?}");
            assert_eq!(std::fs::read(&target).unwrap(), b"old");
        }
        let ended = spoutbasket(&["check", "--json", "--packed", sizes, "-", &chain], bytes);
        assert_eq!(ended.status, 1);
        assert_eq!(ended.line(), format!("standard input: {why}"));
        let object = format!("{{\"number\":{number},{place}\"phrase\":\"{phrase}\"}}");
        let said = String::from_utf8(ended.said).unwrap();
        assert_eq!(said, format!("{{\"refused\":{object}}}\n"));
    };
    let week = packed(3, &WEEK_AMOUNTS);
    let ended = [&week[..], b"\n"].concat();
    for (sizes, bytes, number, found) in [
        ("0,4", &week[..], 1, "p is 0, at least 1"),
        ("17,4", &week, 1, "p is 17, at most 16"),
        ("3,0", &week, 1, "q is 0, at least 1"),
        ("3,65", &week, 1, "q is 65, at most 64"),
        ("17,65", b"", 1, "p is 17, at most 16"),
        (
            "18446744073709551616,4",
            &week,
            1,
            "p is too large, at most 16",
        ),
        (
            "3,99999999999999999999",
            &week,
            1,
            "q is too large, at most 64",
        ),
        ("3,5", &week, 2, "60 bytes found, 75 wanted"),
        ("4,3", &week[..59], 2, "59 bytes found, 60 wanted"),
        ("3,4", &ended, 2, "61 bytes found, 60 wanted"),
        ("3,4", &week[..1], 2, "1 byte found, 60 wanted"),
        ("3,4", b"", 2, "0 bytes found, 60 wanted"),
    ] {
        refused(sizes, bytes, number, "", &format!(": {found}"), "");
    }
    for (sizes, field, halves, number, payslip, column) in [
        ("3,4", 1, 0xA00000003C, 18, 1, 1),
        ("3,4", 7, 0x0000000A0C, 18, 3, 1),
        ("3,4", 12, 0x0000000010, 18, 4, 3),
        ("3,4", 6, 0xF00000000D, 18, 2, 3),
        ("4,3", 6, 0x000000000D, 19, 2, 2),
        ("1,12", 6, 0x000000001D, 19, 6, 1),
        ("12,1", 6, 0x000000001D, 19, 1, 6),
    ] {
        let at = format!(" at field {field}, payslip {payslip}, column {column}");
        let place = format!("\"field\":{field},\"payslip\":{payslip},\"column\":{column},");
        refused(sizes, &with(&week, field, halves), number, &at, "", &place);
    }
    let names = ["bank.keys", "fields", "target", "week.chain"];
    assert_eq!(folder.names(), names);
}

/// Amounts that no field holds: told by field, payslip and column, whichever way the sheet is written.
#[test]
fn amounts_too_large_to_pack() {
    let folder = Folder::new("large");
    let target = folder.file("target", "old");
    let (most, large) = (999_999_999, 1_000_000_000);
    for (amounts, field, payslip, column) in [
        ([large, 0, 0, 0, 0, 0], 1, 1, 1),
        ([0, most, u32::MAX, large, 0, 0], 3, 2, 1),
        ([0, 0, 0, 0, 0, large], 6, 3, 2),
    ] {
        let place = format!("field {field}, payslip {payslip}, column {column}");
        let why = format!("standard input: refused 20 at {place}: {}", phrase(20));
        for (table, arguments) in [(false, &["pack"][..]), (true, &["pack", "--table"])] {
            let text = sheet_text(2, &amounts, table);
            let to = [arguments, &["-o", &target]].concat();
            assert_eq!(spoutbasket(&to, text.as_bytes()).ended(1), why);
            assert_eq!(spoutbasket(arguments, text.as_bytes()).ended(1), why);
            assert_eq!(std::fs::read(&target).unwrap(), b"old");
        }
    }
    // the most that fits
    let said = spoutbasket(&["pack"], b"1 1 999999999\n");
    assert_eq!(
        (said.status, &said.said[..]),
        (0, &[0x99, 0x99, 0x99, 0x99, 0x9C][..])
    );
    // a sheet that cannot be read is told as ever
    let line = spoutbasket(&["pack"], b"1 1\n1.5\n").ended(1);
    let why = format!("refused 105 at line 2, column 2: {}: '.'", phrase(105));
    assert_eq!(line, format!("standard input: {why}"));
}

/// One kind of file in another's place: what it is, where that is plain. No byte of a field is told, wherever the fields are given.
#[test]
fn mistaken_files() {
    let folder = Folder::week("mistaken");
    let (week, chain) = (folder.path("week.packed"), folder.path("week.chain"));
    let plain = folder.path("week.txt");
    let bytes = std::fs::read(&week).unwrap();
    // amounts with digits in all places, a minus among them
    let wages = with(&with(&bytes, 1, 0x764746764C), 2, 0x467647467D);
    let wages_file = folder.file("wages", &wages);
    let ended = folder.file("ended", [&wages[..], b"\n"].concat());
    let table = folder.file("week.csv", "Löhne;Steuer\n3;2\n");
    // text by its bytes, and each five of them a field
    let either = folder.file("either", "1234,5678/");
    let keys = folder.path("bank.keys");
    let refused = |arguments: &[&str], input: &[u8], why: &str, hint: &str| {
        let number = why.split([' ', ':']).next().unwrap();
        let (at, found) = why[number.len()..].split_once(':').unwrap();
        let phrase = phrase(number.parse().unwrap());
        let line = spoutbasket(arguments, input).ended(1);
        let name = match arguments.last() {
            Some(name) if input.is_empty() => name,
            _ => "standard input",
        };
        let why = format!("refused {number}{at}: {phrase}:{found} {hint}");
        assert_eq!(line, format!("{name}: {}", why.trim_end()), "{arguments:?}");
    };
    let is_text = "the file is a text, packed fields are wanted";
    for (sizes, file, why) in [
        ("3,4", &plain, "2: 28 bytes found, 60 wanted;"),
        ("4,1", &plain, "2: 28 bytes found, 20 wanted;"),
        ("17,1", &plain, "1: p is 17, at most 16;"),
        ("1,4", &table, "2: 18 bytes found, 20 wanted;"),
    ] {
        refused(&["compile", "--packed", sizes, file], b"", why, is_text);
        refused(&["unpack", "--packed", sizes, file], b"", why, is_text);
    }
    let why = "18 at field 1, payslip 1, column 1:";
    let text = b"3 1 4 1 5\n";
    refused(&["pack", "--packed", "1,2"], text, why, is_text);

    let are_fields = "for packed fields, five bytes an amount, give --packed P,Q";
    let cut = "103 at line 1, column 61:";
    for (arguments, why) in [
        (vec!["compile", &week], cut),
        (vec!["compile", "--table", &week], cut),
        (vec!["ceiling", &wages_file], cut),
        (vec!["figures", "--keys", &keys, &wages_file], cut),
        (vec!["pack", &wages_file], cut),
        (vec!["pack", "--table", &wages_file], cut),
        (vec!["pack", &ended], "101 at line 1, column 1:"),
        (vec!["compile", "--table", &ended], "1 at line 2, column 1:"),
    ] {
        refused(&arguments, b"", why, are_fields);
    }
    refused(&["check", "-", &chain], &wages, cut, are_fields);
    refused(&["choose", "-", &chain, &chain], &wages, cut, are_fields);

    let no_chain = "the file is packed fields, a chain is wanted";
    refused(&["list", &wages_file], b"", "7:", no_chain);
    refused(&["check", &plain, &wages_file], b"", "7:", no_chain);
    refused(&["run", "--keys", &keys, &week], b"", "7:", no_chain);
    refused(&["pool", &chain, &week], b"", "7:", no_chain);
    // 1 in the place of the edition
    let first = with(&bytes, 1, 0x100000000C);
    refused(&["list", "-"], &first, "6:", no_chain);
    let is_chain = "the file is a chain, a sheet is wanted";
    let why = "2: 15 bytes found, 60 wanted;";
    refused(&["pack", "--packed", "3,4", &chain], b"", why, is_chain);

    // nothing is said of what may be either
    let why = "2: 10 bytes found, 5 wanted";
    refused(&["compile", "--packed", "1,1", &either], b"", why, "");
    let table = "for a table, one payslip a line, give --table";
    let why = "103 at line 1, column 11:";
    refused(&["compile", &either], b"", why, table);
    // nor of fields that are not whole, or not all fields
    let phrase = phrase(103);
    for (input, column) in [(&wages[..59], 60), (&with(&wages, 3, 0xA00000000C), 61)] {
        let line = spoutbasket(&["compile"], input).ended(1);
        let why = format!("refused 103 at line 1, column {column}: {phrase}");
        assert_eq!(line, format!("standard input: {why}"));
    }
}

/// Wrong uses: status 2, one line that repeats no word but an option's name, and no file touched.
#[test]
fn wrong_uses() {
    let folder = Folder::week("packed-usage");
    let [fields, chain, sheet] =
        ["week.packed", "week.chain", "week.txt"].map(|name| folder.path(name));
    let takes = "--packed takes P,Q";
    let takes_two = "--packed takes P,Q,Q2 for two sheets";
    let before = std::fs::read(&fields).unwrap();
    let wrong = |arguments: &[&str], why: &str| {
        let line = spoutbasket(arguments, b"").ended(2);
        let name = arguments[0];
        let why = format!("{name}: {why}; see `spoutbasket help {name}`");
        assert_eq!(line, why, "{arguments:?}");
    };
    for sizes in [
        "3", "3,", ",4", ",", "3,4,", "3,4,4", "3;4", "3 4", "3, 4", " 3,4", "3,4 ", "+3,4",
        "3,+4", "-3,4", "3,-4", "3.0,4", "0x3,4", "three,4", "3,four", "３,4", "3x4", "3,4,x",
    ] {
        let option = format!("--packed={sizes}");
        for command in ["compile", "unpack", "pack"] {
            wrong(&[command, &option, &fields, "-o", &chain], takes);
        }
        wrong(&["check", &option, &fields, &chain], takes);
    }
    for sizes in ["3,4", "3,4,4,4", "3,4,", "3,4,x", "3"] {
        wrong(
            &["check", "--packed", sizes, &fields, &fields, &chain],
            takes_two,
        );
    }
    for arguments in [
        vec!["compile", "--packed", "3,4", "--table", &fields],
        vec!["check", "--table", "--packed", "3,4", &fields, &chain],
        vec!["pack", "--table", "--packed", "3,4", &fields],
    ] {
        wrong(&arguments, "--table and --packed are two kinds of sheet");
    }
    wrong(&["unpack", &fields], "--packed P,Q wanted");
    wrong(&["unpack", "--table", &sheet], "unknown option --table");
    wrong(&["unpack", "--packed"], "--packed needs a value");
    wrong(&["unpack", "--packed", "-3,4"], "--packed needs a value");
    wrong(&["pack", "--packed=", &fields], "--packed needs a value");
    wrong(
        &["unpack", "--packed", "3,4", &fields, &fields],
        "more than 1 file",
    );
    wrong(&["pack", &sheet, &sheet], "more than 1 file");
    let twice = ["compile", "--packed", "3,4", "--packed", "3,4", &fields];
    wrong(&twice, "--packed given twice");
    for command in ["list", "run", "pool"] {
        wrong(&[command, "--packed", "3,4"], "unknown option --packed");
    }
    for arguments in [
        ["unpack", "--packed", "3,4", &fields, "-o", &fields],
        ["pack", "--packed", "3,4", &fields, "-o", &fields],
        ["compile", "--packed", "3,4", &fields, "-o", &fields],
    ] {
        wrong(&arguments, "-o names the sheet itself");
    }
    assert_eq!(std::fs::read(&fields).unwrap(), before);
    assert_eq!(spoutbasket(&["check", &sheet, &chain], b"").done(), PASSED);
    // leading zeros are digits
    let said = spoutbasket(&["unpack", "--packed", "003,0004", &fields], b"");
    assert_eq!(said.done(), WEEK);
}
