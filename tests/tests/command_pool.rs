//! Two chains as one by the command, and the check of the pool against both sheets.
use spoutbasket_tests::command::{count, counts, counts_json, sheet_text, spoutbasket, Folder};
use spoutbasket_tests::compiler::methods;
use spoutbasket_tests::random::{bases, modulus, sheet, Random};
use spoutbasket_tests::reference::{self, LONGEST_FILE, MOST_PAYSLIPS, MOST_STEPS};
use spoutbasket_tests::texts::phrase;

/// The file of a chain.
fn written(p: usize, steps: &[u32], outputs: &[u32]) -> Vec<u8> {
    let mut bytes = vec![0; LONGEST_FILE];
    let length = reference::write(p, steps, outputs, &mut bytes).unwrap()[0];
    bytes.truncate(length as usize);
    bytes
}

/// The file of the pool of two files' chains.
fn pooled(first: &[u8], second: &[u8]) -> Vec<u8> {
    let read = |bytes: &[u8]| {
        let (mut steps, mut outputs) = (vec![0; 2 * MOST_STEPS], vec![0; MOST_PAYSLIPS]);
        let read = reference::read(bytes, &mut steps, &mut outputs).unwrap();
        steps.truncate(2 * read[2] as usize);
        outputs.truncate(read[1] as usize);
        (read[0] as usize, steps, outputs)
    };
    let ((p, steps1, outputs1), (p2, steps2, outputs2)) = (read(first), read(second));
    let mut steps = vec![0; steps1.len() + steps2.len()];
    let mut outputs = vec![0; outputs1.len() + outputs2.len()];
    let (a, b) = (
        (p, &steps1[..], &outputs1[..]),
        (p2, &steps2[..], &outputs2[..]),
    );
    reference::pool(a, b, &mut steps, &mut outputs).unwrap();
    written(p, &steps, &outputs)
}

/// Sheets, their chains, the pool and its check; a damaged amount is found in its sheet.
#[test]
fn from_two_sheets_to_one_list_of_figures() {
    let mut r = Random(57);
    let folder = Folder::new("pool");
    let pool = folder.path("pool.chain");
    for round in 0..40 {
        let (p, table) = (r.within(1, 5), r.one_in(2));
        let q = [r.within(1, 6), r.within(1, 6)];
        let bits = r.within(1, 20);
        let amounts = q.map(|q| sheet(&mut r, p, q, bits));
        let names = ["first.txt", "second.txt"];
        let sheets = [0, 1].map(|i| folder.file(names[i], sheet_text(p, &amounts[i], table)));
        let chains = [0, 1].map(|i| {
            let (method, k) = r.pick(&methods(p));
            let (steps, outputs) = reference::make(p, q[i], &amounts[i], method, k);
            let steps: Vec<u32> = steps.into_iter().flat_map(|(a, b)| [a, b]).collect();
            written(p, &steps, &outputs)
        });
        let [first, second] = [0, 1].map(|i| folder.file(&format!("{i}.chain"), &chains[i]));
        let expected = pooled(&chains[0], &chains[1]);
        // to a file, to standard output, and each part from standard input
        spoutbasket(&["pool", &first, &second, "-o", &pool], b"").done();
        assert_eq!(std::fs::read(&pool).unwrap(), expected);
        assert_eq!(spoutbasket(&["pool", &first, &second], b"").said, expected);
        let said = spoutbasket(&["pool", "-", &second, "-o", "-"], &chains[0]);
        assert_eq!(said.said, expected);
        assert_eq!(
            spoutbasket(&["pool", &first, "-"], &chains[1]).said,
            expected
        );

        let (mut steps, mut outputs) = (vec![0; 2 * MOST_STEPS], vec![0; MOST_PAYSLIPS]);
        let read = reference::read(&expected, &mut steps, &mut outputs).unwrap();
        let made = &read[2..];
        let both = q[0] + q[1];
        let sizes = [
            count(p, "column"),
            count(both, "payslip"),
            counts("step", made),
        ];
        let sizes = sizes.join(", ");
        let verbose = spoutbasket(&["pool", &first, &second, "-v", "-o", &pool], b"");
        assert_eq!((verbose.status, verbose.said.len()), (0, 0));
        assert_eq!(verbose.line(), format!("{first} and {second}: {sizes}"));

        let check = match table {
            true => vec!["check", "--table"],
            false => vec!["check"],
        };
        let files = [&sheets[0][..], &sheets[1], &pool];
        let checked = spoutbasket(&[&check[..], &files].concat(), b"").done();
        assert_eq!(checked, format!("passed: {sizes}\n"));
        let object = spoutbasket(&[&check[..], &files, &["--json"]].concat(), b"").done();
        let steps = counts_json("steps", made);
        let numbers = format!("\"columns\":{p},\"payslips\":{both},{steps}");
        assert_eq!(object, format!("{{\"passed\":true,{numbers}}}\n"));

        // the figures of the first and then of the second
        let m = modulus(&mut r);
        let bases = bases(&mut r, p, m);
        let mut keys = vec![m.to_string()];
        keys.extend(bases.iter().map(u32::to_string));
        let keys = folder.file("keys", keys.join(" ") + "\n");
        let run = spoutbasket(&["run", "--keys", &keys, &pool], b"").done();
        let all = amounts.concat();
        let figures = all
            .chunks(p)
            .map(|payslip| reference::figure(m, &bases, payslip));
        let lines: String = figures.map(|figure| format!("{figure}\n")).collect();
        let made = counts("multiplication", made);
        assert_eq!(run, format!("{lines}{made}\n"));

        // another amount in one of the sheets
        let part = round % 2;
        let mut other = amounts[part].clone();
        let i = r.below(other.len());
        other[i] ^= 1;
        folder.file(names[part], sheet_text(p, &other, table));
        let (payslip, column) = (i / p + 1, i % p + 1);
        let place = part * q[0] + payslip;
        let sheet = &sheets[part];
        assert_eq!(
            spoutbasket(&[&check[..], &files].concat(), b"").ended(1),
            format!(
                "{pool}: refused 14 at payslip {place}: {}: column {column} is another amount; payslip {payslip} of {sheet}",
                phrase(14)
            )
        );
        let object = spoutbasket(&[&check[..], &files, &["--json"]].concat(), b"");
        let expected = format!(
            "{{\"refused\":{{\"number\":14,\"payslip\":{place},\"phrase\":\"{}\"}}}}\n",
            phrase(14)
        );
        let said = String::from_utf8(object.said).unwrap();
        assert_eq!((object.status, said), (1, expected));
    }
}

/// The sheets in the other order are another sheet, unless they are equal.
#[test]
fn the_first_above_the_second() {
    let folder = Folder::new("order");
    let sheets = [
        folder.file("a.txt", "1 2\n3\n5\n"),
        folder.file("b.txt", "1 1\n3\n"),
    ];
    let chains = ["a.chain", "b.chain"].map(|name| folder.path(name));
    for (sheet, chain) in sheets.iter().zip(&chains) {
        spoutbasket(&["compile", sheet, "-o", chain], b"").done();
    }
    let [a, b] = &sheets;
    let pool = folder.path("pool.chain");
    spoutbasket(&["pool", &chains[0], &chains[1], "-o", &pool], b"").done();
    assert_eq!(spoutbasket(&["check", a, b, &pool], b"").status, 0);
    let why = |place: usize, payslip: &str| {
        let phrase = phrase(14);
        format!("{pool}: refused 14 at payslip {place}: {phrase}: column 1 is another amount; payslip {payslip}")
    };
    let line = spoutbasket(&["check", b, a, &pool], b"").ended(1);
    assert_eq!(line, why(2, &format!("1 of {a}")));
    let line = spoutbasket(&["check", "-", b, &pool], b"1 2 3 6\n").ended(1);
    assert_eq!(line, why(2, "2 of standard input"));
    let line = spoutbasket(&["check", a, "-", &pool], b"1 1 4\n").ended(1);
    assert_eq!(line, why(3, "1 of standard input"));
    // one sheet with all payslips does as well
    assert_eq!(
        spoutbasket(&["check", "-", &pool], b"1 3 3 5 3\n").status,
        0
    );
    // a pool is a chain, and pools again
    let more = folder.path("more.chain");
    spoutbasket(&["pool", &pool, &chains[0], "-o", &more], b"").done();
    let checked = spoutbasket(&["check", "-", a, &more], b"1 3 3 5 3\n").done();
    assert!(checked.starts_with("passed: 1 column, 5 payslips, "));
}

/// What is refused of both files together, by number, with what was found.
#[test]
fn parts_that_do_not_pool() {
    let folder = Folder::new("unpooled");
    let target = folder.file("old.chain", "old");
    let chain = |name: &str, p: usize, n: usize, q: usize| {
        folder.file(name, written(p, &vec![1; 2 * n], &vec![1; q]))
    };
    let (narrow, wide) = (chain("narrow", 1, 1, 1), chain("wide", 12, 1, 1));
    let (many, more) = (chain("many", 1, 1, 64), chain("more", 1, 1, 6));
    let (long, longer) = (chain("long", 1, 8_000, 1), chain("longer", 1, 8_001, 1));
    let wide_and_longer = chain("both", 2, 8_001, 1);
    for (first, second, number, found) in [
        (&many, &narrow, 1, "65 payslips together, at most 64"),
        (&more, &many, 1, "70 payslips together, at most 64"),
        (&many, &wide, 1, "65 payslips together, at most 64"),
        (&wide, &narrow, 17, "12 and 1 columns"),
        (&narrow, &wide, 17, "1 and 12 columns"),
        (&longer, &wide_and_longer, 17, "1 and 2 columns"),
        (&longer, &long, 4, "16001 steps together, at most 16000"),
        (&long, &longer, 4, "16001 steps together, at most 16000"),
    ] {
        let line = spoutbasket(&["pool", first, second, "-o", &target], b"").ended(1);
        let phrase = phrase(number);
        assert_eq!(
            line,
            format!("{first} and {second}: refused {number}: {phrase}: {found}")
        );
        assert_eq!(std::fs::read(&target).unwrap(), b"old");
    }
    let line = spoutbasket(&["pool", &wide, "-"], &std::fs::read(&narrow).unwrap()).ended(1);
    assert!(line.starts_with(&format!("{wide} and standard input: refused 17: ")));
    spoutbasket(&["pool", &long, &long, "-o", &target], b"").done();
    assert_eq!(
        std::fs::read(&target).unwrap().len(),
        reference::file_length(1, 2, 16_000)
    );
}

/// Two sheets that do not go together, or do not go with the chain.
#[test]
fn sheets_that_do_not_go_together() {
    let folder = Folder::new("unlike");
    let sheet =
        |name: &str, p: usize, q: usize| folder.file(name, sheet_text(p, &vec![1; p * q], false));
    let (two, three) = (sheet("two", 2, 1), sheet("three", 3, 1));
    let (many, few) = (sheet("many", 2, 60), sheet("few", 2, 5));
    let pool = folder.file("pool", written(2, &[2, 1], &[3; 7]));
    let sheets = |a: &str, b: &str| format!("{a} and {b}");
    for (above, below, name, number, found) in [
        (
            &many,
            &few,
            sheets(&many, &few),
            1,
            "65 payslips together, at most 64",
        ),
        (&two, &three, sheets(&two, &three), 17, "2 and 3 columns"),
        (&three, &two, sheets(&three, &two), 17, "3 and 2 columns"),
        (
            &three,
            &three,
            pool.clone(),
            14,
            "the chain has 2 columns, the sheets 3",
        ),
        (
            &few,
            &two,
            pool.clone(),
            14,
            "the chain has 7 payslips, the sheets 6",
        ),
        (
            &many,
            &two,
            pool.clone(),
            14,
            "the chain has 7 payslips, the sheets 61",
        ),
    ] {
        let checked = spoutbasket(&["check", above, below, &pool], b"");
        let phrase = phrase(number);
        assert_eq!(
            checked.ended(1),
            format!("{name}: refused {number}: {phrase}: {found}")
        );
        let object = spoutbasket(&["check", "--json", above, below, &pool], b"");
        let said = String::from_utf8(object.said).unwrap();
        let number = format!("\"number\":{number},\"phrase\":\"{phrase}\"");
        assert_eq!(
            (object.status, said),
            (1, format!("{{\"refused\":{{{number}}}}}\n"))
        );
    }
    // a chain in a sheet's place, as where `choose` was meant
    for sheets in [[&two, &pool], [&pool, &two]] {
        for table in [&["check"][..], &["check", "--table"]] {
            let arguments = [table, &sheets.map(|sheet| &sheet[..]), &[&pool[..]]].concat();
            let line = spoutbasket(&arguments, b"").ended(1);
            assert!(
                line.starts_with(&format!("{pool}: refused "))
                    && line.ends_with("the file is a chain, a sheet is wanted"),
                "{line}"
            );
        }
    }
    // a fault in one of the sheets is told of that sheet
    for (arguments, name) in [
        (["check", "-", &two, &pool], "standard input"),
        (["check", &two, "-", &pool], "standard input"),
    ] {
        let line = spoutbasket(&arguments, b"2 1\n3 -2\n").ended(1);
        let phrase = phrase(106);
        assert_eq!(
            line,
            format!("{name}: refused 106 at line 2, column 3: {phrase}: '-'")
        );
    }
}
