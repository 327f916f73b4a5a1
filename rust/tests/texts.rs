//! Sheets and keys from texts, and what is said of a text that cannot be read.
use spoutbasket::{Keys, Reason, Refusal, Sheet, SheetError, TextFault, TextReason};
use spoutbasket::{MOST_COLUMNS, MOST_PAYSLIPS};
use std::error::Error;

#[test]
fn sheets() -> Result<(), SheetError> {
    let sheet = Sheet::from_rows([[3, 0, 2], [1, 2, 0], [0, 0, 2], [3, 2, 1]])?;
    for text in [
        "3 4\n3 0 2\n1 2 0\n0 0 2\n3 2 1\n",
        "\u{feff}3 4 3 0 2 1 2 0 0 0 2 3 2 1\r\n",
        "003\t4\n\n3 0 2 1 2\n 0 0 0 2 3 2 1 \n",
    ] {
        assert_eq!(Sheet::from_text(text.as_bytes())?, sheet, "{text}");
    }
    for text in [
        "3 0 2\n1 2 0\n0 0 2\n3 2 1\n",
        "basic overtime leave\n3 0 2\n1 2 0\n0 0 2\n3 2 1\n",
        "\u{feff}Grundlohn;Zulage;Urlaub\r\n3;0;2\r\n1;2;0\r\n 0 ; 0; 2\r\n3;2;1\r\n",
        "3,0,2\n1,2,0\n0,0,2\n3,2,1\n",
        "3\t0\t2\n1\t2\t0\n0\t0\t2\n3\t2\t1\n",
    ] {
        assert_eq!(Sheet::from_table(text.as_bytes())?, sheet, "{text}");
    }
    Ok(())
}

/// The largest sheet goes through both texts.
#[test]
fn largest() -> Result<(), SheetError> {
    let amounts: Vec<u32> = (0..1024u32).map(|i| u32::MAX - i).collect();
    let sheet = Sheet::new(MOST_COLUMNS, MOST_PAYSLIPS, amounts)?;
    let line = |row: &[u32]| {
        let amounts: Vec<String> = row.iter().map(u32::to_string).collect();
        amounts.join(" ") + "\n"
    };
    let table: String = sheet.rows().map(line).collect();
    assert_eq!(Sheet::from_table(table.as_bytes())?, sheet);
    assert_eq!(
        Sheet::from_text(format!("16 64\n{table}").as_bytes())?,
        sheet
    );
    let error = Sheet::from_text(format!("16 64\n{table}0\n").as_bytes()).unwrap_err();
    assert_eq!(error, Refusal::from(Reason::Amounts).into());
    Ok(())
}

#[test]
fn refused() {
    for (text, reason) in [
        ("", Reason::Sizes),
        ("2\n", Reason::Sizes),
        ("0 1\n", Reason::Sizes),
        ("17 1\n", Reason::Sizes),
        ("2 1\n3\n", Reason::Amounts),
        ("2 1\n3 2 1\n", Reason::Amounts),
    ] {
        let error = Sheet::from_text(text.as_bytes()).unwrap_err();
        assert_eq!(error, SheetError::Refusal(reason.into()), "{text}");
        assert_eq!(error.number(), reason.number());
    }
}

/// The fault of a table, which is told the same by `Debug`, as a sheet's error and as an error of input and output.
fn fault(table: &str) -> TextFault {
    let error = Sheet::from_table(table.as_bytes()).unwrap_err();
    let SheetError::Text(fault) = error else {
        panic!("{error}")
    };
    let words = fault.to_string();
    assert_eq!(format!("{fault:?}"), words);
    assert_eq!(
        (error.to_string(), format!("{error:?}")),
        (words.clone(), words.clone())
    );
    assert_eq!(error.number(), fault.number());
    let error = std::io::Error::from(error);
    assert_eq!(error.kind(), std::io::ErrorKind::InvalidData);
    assert_eq!(error.to_string(), words);
    let error: Box<dyn Error> = fault.into();
    assert_eq!(error.to_string(), words);
    fault
}

#[test]
fn faults_in_words() {
    let wide = "1 ".repeat(17) + "\n";
    let long = "1\n".repeat(65);
    for (table, reason, words) in [
        (
            "3 x\n",
            TextReason::Byte,
            "line 1, column 3: neither a digit nor a separator: 'x'",
        ),
        (
            "3 0\n1 \u{e9}\n",
            TextReason::Byte,
            "line 2, column 3: neither a digit nor a separator: byte 0xc3",
        ),
        (
            "3;0\n1\t;2\n",
            TextReason::Byte,
            "line 2, column 2: neither a digit nor a separator: byte 0x09",
        ),
        (
            "3 4294967296\n",
            TextReason::Large,
            "line 1, column 12: number above 4,294,967,295",
        ),
        (
            "3 0\n1 2",
            TextReason::CutOff,
            "line 2, column 4: cut off: the last line has no newline",
        ),
        (
            "3;0;2\n1;2\n",
            TextReason::Fields,
            "line 2, column 4: 2 amounts, 3 wanted",
        ),
        (
            "3;0;2\n1\n",
            TextReason::Fields,
            "line 2, column 2: 1 amount, 3 wanted",
        ),
        (
            "3 0\n\n",
            TextReason::Fields,
            "line 2, column 1: 0 amounts, 2 wanted",
        ),
        (
            "3 0\n1.5 2\n",
            TextReason::Mark,
            "line 2, column 2: decimal point or grouping mark: '.'",
        ),
        (
            "187,50;20,00\n",
            TextReason::Mark,
            "line 1, column 4: decimal point or grouping mark: ','",
        ),
        (
            "1 875;20\n",
            TextReason::Mark,
            "line 1, column 3: decimal point or grouping mark: a blank before '8'",
        ),
        ("3 -1\n", TextReason::Sign, "line 1, column 3: sign: '-'"),
        (
            "3;;1\n",
            TextReason::Empty,
            "line 1, column 3: no amount between two separators",
        ),
        (
            "",
            TextReason::Sizes,
            "line 1, column 1: q is 0, at least 1",
        ),
        (
            "basic;leave\n",
            TextReason::Sizes,
            "line 2, column 1: q is 0, at least 1",
        ),
        (
            "\n",
            TextReason::Sizes,
            "line 1, column 1: p is 0, at least 1",
        ),
        (
            &wide,
            TextReason::Sizes,
            "line 1, column 35: p is 17, at most 16",
        ),
        (
            &long,
            TextReason::Sizes,
            "line 65, column 1: q is 65, at most 64",
        ),
    ] {
        let fault = fault(table);
        assert_eq!(
            (fault.reason, &fault.to_string()[..]),
            (reason, words),
            "{table:?}"
        );
    }
}

/// Of several faults the first place sorts first.
#[test]
fn order() {
    let (first, second) = (fault("3 x\n"), fault("3 0\n-1 2\n"));
    assert!(first < second);
}

#[test]
fn keys() {
    let keys = Keys::from_text(b"10000\n3 5 7\n").unwrap();
    assert_eq!((keys.modulus, &keys.bases[..]), (10_000, &[3, 5, 7][..]));
    // neither in a line nor over many
    for shown in [format!("{keys:?}"), format!("{keys:#?}")] {
        assert!(!shown.contains(|c: char| c.is_ascii_digit()), "{shown}");
    }
    let none = Keys::from_text(b"").unwrap();
    assert_eq!((none.modulus, none.bases.len()), (0, 0));
    let most = "9\n".repeat(17);
    assert_eq!(Keys::from_text(most.as_bytes()).unwrap().bases, [9; 16]);
    // how many there may be is for the run to say
    let more = Keys::from_text((most + " 9\n").as_bytes()).unwrap();
    assert_eq!(more.bases, [9; 17]);
    let point = Keys::from_text(b"10000\n3.5\n").unwrap_err();
    assert_eq!(
        (point.reason, point.line, point.column),
        (TextReason::Mark, 2, 2)
    );
}
