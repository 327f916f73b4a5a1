//! What the command turns down: number, place in words, phrase, what was found and what was wanted, and under which file's name.
use spoutbasket_tests::command::{spoutbasket, Folder};
use spoutbasket_tests::reference::{LONGEST_FILE, MOST_COLUMNS, MOST_PAYSLIPS};
use spoutbasket_tests::texts::phrase;

/// A refusal as it is told: `14 at payslip 3` or `14`, and what is found, if that is told.
fn told(name: &str, refused: &str, found: &str) -> String {
    let number = refused.split(' ').next().unwrap().parse().unwrap();
    let found = match found {
        "" => String::new(),
        found => format!(": {found}"),
    };
    format!("{name}: refused {refused}: {}{found}", phrase(number))
}

/// A file of edition 1 made of its fields: any numbers, legal or not.
fn file(p: usize, q: usize, n: usize, fields: &[usize]) -> Vec<u8> {
    let width = (usize::BITS - (p + n).leading_zeros()) as usize;
    let mut bits = String::from("0001");
    bits += &format!("{:04b}{:06b}{n:014b}", p - 1, q - 1);
    for field in fields {
        bits += &format!("{field:0width$b}");
    }
    bits += &"0".repeat(bits.len().wrapping_neg() % 8);
    let byte = |at: usize| u8::from_str_radix(&bits[at..at + 8], 2).unwrap();
    (0..bits.len()).step_by(8).map(byte).collect()
}

#[test]
fn plain_sheets() {
    let most = MOST_COLUMNS * MOST_PAYSLIPS;
    let many = format!("16 64\n{}\n", "7 ".repeat(most + 1));
    let many_columns = format!("17 64\n{}\n", "7 ".repeat(17 * 64));
    let table = "for a table, one payslip a line, give --table";
    for (text, refused, found) in [
        ("", "1", "p is missing"),
        ("\u{feff}", "1", "p is missing"),
        ("3\n", "1", "q is missing"),
        ("0 1\n", "1", "p is 0, at least 1"),
        ("17 1\n", "1", "p is 17, at most 16"),
        ("2 65\n", "1", "q is 65, at most 64"),
        (
            "4294967295 4294967295\n",
            "1",
            "p is 4294967295, at most 16",
        ),
        (&many_columns, "1", "p is 17, at most 16"),
        ("2 1 3 2 1\n", "2", "3 found, 2 wanted"),
        ("2 2\n1 2\n", "2", "2 found, 4 wanted"),
        (&many, "2", "1025 found, 1024 wanted"),
        ("2 1 3 /\n", "101 at line 1, column 7", "'/'"),
        (
            "2 1\n3 x\n",
            "101 at line 2, column 3",
            &format!("'x'; {table}"),
        ),
        ("2 1\n3\u{a0}2\n", "101 at line 2, column 2", "byte 0xc2"),
        ("1 1\n\u{feff}3\n", "101 at line 2, column 1", "byte 0xef"),
        ("1 1\n\0\n", "101 at line 2, column 1", "byte 0x00"),
        (
            "basic;tax\n3;2\n",
            "101 at line 1, column 1",
            &format!("'b'; {table}"),
        ),
        (
            "3;2\n1;0\n",
            "101 at line 1, column 2",
            &format!("';'; {table}"),
        ),
        ("1 1\n\n 4294967296\n", "102 at line 3, column 11", ""),
        ("1 1 99999999999\n", "102 at line 1, column 14", ""),
        ("2 1\n3 2", "103 at line 2, column 4", ""),
        ("2 1\n3 2\r", "103 at line 2, column 5", ""),
        ("3,2\n", "105 at line 1, column 2", &format!("','; {table}")),
        ("1 1\n187.50\n", "105 at line 2, column 4", "'.'"),
        ("1 1\n1'875\n", "105 at line 2, column 2", "'''"),
        ("1 1\n1_875\n", "105 at line 2, column 2", "'_'"),
        ("2 1\n3 -2\n", "106 at line 2, column 3", "'-'"),
        ("2 1\n+3 2\n", "106 at line 2, column 1", "'+'"),
    ] {
        let line = spoutbasket(&["compile"], text.as_bytes()).ended(1);
        assert_eq!(line, told("standard input", refused, found), "{text:?}");
    }
}

#[test]
fn tables() {
    let line = |p: usize| format!("{}\n", vec!["7"; p].join(","));
    let most = line(16).repeat(64);
    assert_eq!(
        spoutbasket(&["compile", "--table"], most.as_bytes()).status,
        0
    );
    for (text, refused, found) in [
        ("", "1 at line 1, column 1", "q is 0, at least 1"),
        ("\n", "1 at line 1, column 1", "p is 0, at least 1"),
        ("basic;tax\n", "1 at line 2, column 1", "q is 0, at least 1"),
        (&line(17), "1 at line 1, column 34", "p is 17, at most 16"),
        (
            &(most + "7\n"),
            "1 at line 65, column 1",
            "q is 65, at most 64",
        ),
        ("3;2\n1;x\n", "101 at line 2, column 3", "'x'"),
        (
            "3,2\n1;0\n",
            "104 at line 2, column 4",
            "1 amount, 2 wanted",
        ),
        ("3 2\n1;4 0\n", "101 at line 2, column 2", "';'"),
        ("3,2\n1\t,0\n", "101 at line 2, column 2", "byte 0x09"),
        ("3 2\n1\r 0\n", "101 at line 2, column 2", "byte 0x0d"),
        ("3;4294967296\n", "102 at line 1, column 12", ""),
        ("3;2\n1;0", "103 at line 2, column 4", ""),
        (
            "a b\n1 2\n3\n",
            "104 at line 3, column 2",
            "1 amount, 2 wanted",
        ),
        (
            "1\t2\n3\t4\t5\r\n",
            "104 at line 2, column 6",
            "3 amounts, 2 wanted",
        ),
        ("1,2\n\n", "104 at line 2, column 1", "1 amount, 2 wanted"),
        ("187,50;20,00\n", "105 at line 1, column 4", "','"),
        ("187.50;20\n", "105 at line 1, column 4", "'.'"),
        (
            "1 875;20\n",
            "105 at line 1, column 3",
            "a blank before '8'",
        ),
        ("1'875\t20\n", "105 at line 1, column 2", "'''"),
        ("-3;2\n", "106 at line 1, column 1", "'-'"),
        ("3;+2\n", "106 at line 1, column 3", "'+'"),
        ("3;;2\n", "107 at line 1, column 3", ""),
        ("3;2\n3; \r\n", "107 at line 2, column 4", ""),
    ] {
        let line = spoutbasket(&["compile", "--table"], text.as_bytes()).ended(1);
        assert_eq!(line, told("standard input", refused, found), "{text:?}");
    }
}

/// One sheet as tables with every separator, with names, mark and both ends of lines; and a text that is both a table and plain numbers.
#[test]
fn tables_as_people_have_them() {
    let folder = Folder::new("tables");
    let plain = folder.file("plain", "2 2\n168233 0\n18750 7\n");
    let chain = folder.path("chain");
    spoutbasket(&["compile", &plain, "-o", &chain], b"").done();
    let passed = spoutbasket(&["check", &plain, &chain], b"").done();
    for text in [
        "168233\t0\n18750\t7\n",
        "168233;0\n18750;7\n",
        "168233,0\n18750,7\n",
        "168233 0\n18750 7\n",
        "  168233    0  \n 18750\t7\n",
        "basic;tax\r\n168233;0\r\n18750;7\r\n",
        "\u{feff}Grundlohn\tSteuer\r\n168233\t0\r\n18750\t7\r\n",
        "basic pay , tax\n 168233 , 0\n018750 , 0007 \n",
        "\"basic\" 'tax'\n168233 0\n18750 7\n",
    ] {
        let checked = spoutbasket(&["check", "--table", "-", &chain], text.as_bytes());
        assert_eq!(checked.done(), passed, "{text:?}");
    }
    let both = b"2 1\n3 2\n";
    let listed = |arguments: &[&str]| {
        let chain = spoutbasket(arguments, both).said;
        let listed = spoutbasket(&["list"], &chain).done();
        listed.lines().skip(1).collect::<Vec<_>>().join("; ")
    };
    assert_eq!(listed(&["compile"]), "1 3 2");
    assert_eq!(listed(&["compile", "--table"]), "1 2 1; 2 3 2");
}

#[test]
fn methods() {
    let wide = format!("11 1\n{}\n", "1 ".repeat(11));
    let largest = format!("16 64\n{}\n", "4294967295 ".repeat(16 * 64));
    let straus = "method straus takes k from 1 to 5 with p times k at most 10";
    let yao = "method yao takes k from 1 to 8";
    let partition = "method partition takes c from 1 to 8";
    for (text, method, refused, found) in [
        ("2 1 3 2\n", "straus:6", "3", straus),
        ("2 1 3 2\n", "straus:0", "3", straus),
        (&wide, "straus:1", "3", straus),
        ("2 1 3 2\n", "yao:9", "3", yao),
        ("2 1 3 2\n", "yao:0", "3", yao),
        ("2 1 3 2\n", "partition:9", "3", partition),
        (
            &largest,
            "yao:1",
            "4",
            "by yao:1; --best may find a shorter chain",
        ),
    ] {
        let expected = told("standard input", refused, found);
        let line = spoutbasket(&["compile", "--method", method], text.as_bytes()).ended(1);
        assert_eq!(line, expected, "{method}");
    }
    let folder = Folder::new("methods");
    let keys = folder.file("keys", "7 3\n");
    let figures = ["figures", "--keys", &keys, "--method", "yao:9"];
    let line = spoutbasket(&figures, b"1 1 1\n").ended(1);
    assert_eq!(line, told("standard input", "3", yao));
    // the best of the largest sheet is not too long
    assert_eq!(spoutbasket(&["compile"], largest.as_bytes()).status, 0);
}

/// Bytes that are no chain's file, by each command that reads one.
#[test]
fn chain_files() {
    let folder = Folder::new("files");
    let sheet = folder.file("sheet", "1 1\n1\n");
    let keys = folder.file("keys", "7 3\n");
    let case_a = [0x11, 0x00, 0x00, 0x34, 0x5b, 0x86, 0x80];
    let mut filled = case_a;
    filled[6] |= 1;
    let good = folder.file("good", file(1, 1, 1, &[1, 1, 2]));
    let long = "over 56116 bytes, the longest file";
    for (bytes, refused, found) in [
        (vec![], "6", "0 bytes"),
        (b"old".to_vec(), "6", "3 bytes"),
        (case_a[..6].to_vec(), "6", "6 bytes"),
        ([&case_a[..], b"\n"].concat(), "6", "8 bytes"),
        (vec![0x11; LONGEST_FILE + 1], "6", long),
        (vec![0x11; 100_000], "6", long),
        (vec![0x20, 0, 0, 0], "7", "edition 2 found, 1 wanted"),
        (b"1 1\n1\n".to_vec(), "7", "edition 3 found, 1 wanted"),
        (vec![0x10, 0x03, 0xFF, 0xF0], "4", ""),
        (filled.to_vec(), "8", ""),
        (file(1, 1, 1, &[1, 0, 0]), "9 at step 1", ""),
        (file(1, 1, 2, &[1, 1, 0, 2, 0]), "9 at step 2", ""),
        (file(1, 1, 1, &[2, 1, 0]), "10 at step 1", ""),
        (file(1, 1, 3, &[1, 1, 2, 2, 4, 4, 0]), "10 at step 3", ""),
        (file(2, 1, 1, &[1, 2, 0]), "11 at step 1", ""),
        (file(2, 1, 0, &[3]), "12 at payslip 1", ""),
        (file(2, 3, 0, &[0, 1, 3]), "12 at payslip 3", ""),
    ] {
        let chain = folder.file("chain", &bytes);
        let expected = told(&chain, refused, found);
        for arguments in [
            vec!["check", &sheet, &chain],
            vec!["list", &chain],
            vec!["run", "--keys", &keys, &chain],
            vec!["choose", &sheet, &chain, &chain],
            vec!["check", &sheet, &sheet, &chain],
            vec!["pool", &chain, &good],
            vec!["pool", &good, &chain],
            vec!["pool", &chain, &chain],
        ] {
            let line = spoutbasket(&arguments, b"").ended(1);
            assert_eq!(line, expected, "{arguments:?}");
        }
    }
}

/// Chains that are not the sheet's.
#[test]
fn other_sheets() {
    let folder = Folder::new("sheets");
    let chain = |name: &str, sheet: &str| {
        let chain = folder.path(name);
        spoutbasket(&["compile", "-o", &chain], sheet.as_bytes()).done();
        chain
    };
    let two = chain("two", "2 3\n1 2\n3 4\n5 6\n");
    for (sheet, refused, found) in [
        (
            "3 2\n1 2 3 4 5 6\n",
            "14",
            "the chain has 2 columns, the sheet 3",
        ),
        ("1 3\n1 3 5\n", "14", "the chain has 2 columns, the sheet 1"),
        (
            "3 3\n1 2 0 3 4 0 5 6 0\n",
            "14",
            "the chain has 2 columns, the sheet 3",
        ),
        (
            "2 2\n1 2\n3 4\n",
            "14",
            "the chain has 3 payslips, the sheet 2",
        ),
        (
            "2 4\n1 2\n3 4\n5 6\n7 8\n",
            "14",
            "the chain has 3 payslips, the sheet 4",
        ),
        (
            "2 3\n1 2\n3 4\n5 7\n",
            "14 at payslip 3",
            "column 2 is another amount",
        ),
        (
            "2 3\n1 2\n4 3\n6 5\n",
            "14 at payslip 2",
            "column 1 is another amount",
        ),
    ] {
        let line = spoutbasket(&["check", "-", &two], sheet.as_bytes()).ended(1);
        assert_eq!(line, told(&two, refused, found), "{sheet:?}");
    }
    // squarings up to an exponent that is too large
    let squarings: Vec<usize> = (1..=32).flat_map(|v| [v, v]).chain([1]).collect();
    let large = folder.file("large", file(1, 1, 32, &squarings));
    let expected = told(&large, "13 at step 32", "");
    let line = spoutbasket(&["check", "-", &large], b"1 1 1\n").ended(1);
    assert_eq!(line, expected);
    assert_eq!(spoutbasket(&["list", &large], b"").ended(1), expected);
    let line = spoutbasket(&["check", "-", &large], b"2 1 1 1\n").ended(1);
    let shape = "the chain has 1 column, the sheet 2";
    assert_eq!(line, told(&large, "14", shape));
}

/// 15 and 16, and texts that are no keys, by the run and by the whole path.
#[test]
fn keys() {
    let folder = Folder::new("keys");
    let sheet = folder.file("sheet", "3 1\n3 2 1\n");
    let chain = folder.path("chain");
    spoutbasket(&["compile", &sheet, "-o", &chain], b"").done();
    let seventeen = format!("11 {}\n", "1 ".repeat(17));
    for (keys, refused, found) in [
        ("", "15", ""),
        ("0 0 0 0\n", "15", ""),
        ("11 3 5\n", "16", "2 bases, 3 wanted"),
        ("11 3\n", "16", "1 base, 3 wanted"),
        ("11\n", "16", "0 bases, 3 wanted"),
        ("11 3 5 7 2\n", "16", "4 bases, 3 wanted"),
        (&seventeen, "16", "17 bases, 3 wanted"),
        ("11 3 12 7\n", "16", "base 2 is 12, the modulus 11"),
        ("11 3 5 11\n", "16", "base 3 is 11, the modulus 11"),
        ("11 3 5 7", "103 at line 1, column 9", ""),
        ("11 3,5,7\n", "105 at line 1, column 5", "','"),
        ("11 3 5 -7\n", "106 at line 1, column 8", "'-'"),
        ("4294967296 3 5 7\n", "102 at line 1, column 10", ""),
        ("11 3 5 seven\n", "101 at line 1, column 8", "'s'"),
    ] {
        for file in [["run", &chain], ["figures", &sheet]] {
            let named = folder.file("bank.keys", keys);
            let line = spoutbasket(&[&file[..], &["--keys", &named]].concat(), b"").ended(1);
            assert_eq!(line, told(&named, refused, found), "{keys:?}");
            let line = spoutbasket(&[&file[..], &["--keys", "-"]].concat(), keys.as_bytes());
            assert_eq!(
                line.ended(1),
                told("standard input", refused, found),
                "{keys:?}"
            );
        }
    }
    // what keys are refused for is a secret, and is not in what a script takes up
    let arguments = ["run", "--json", "--keys", "-", &chain];
    let object = spoutbasket(&arguments, b"59 3 61 7\n");
    assert_eq!(object.status, 1);
    let said = String::from_utf8(object.said).unwrap();
    assert!(!said.contains("59") && !said.contains("61"), "{said}");
    assert!(object.told.ends_with(": base 2 is 61, the modulus 59\n"));
}
