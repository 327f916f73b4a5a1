//! Listings through the wrapper: worked example A, refusals, and the largest sheet.
use spoutbasket::{list, list_text, Chain, Method, Refusal, Sheet};
use spoutbasket::{MOST_COLUMNS, MOST_PAYSLIPS};

#[test]
fn example_and_refusals() -> Result<(), Refusal> {
    let file = [0x11, 0x00, 0x00, 0x34, 0x5b, 0x86, 0x80];
    assert_eq!(list_text(&file), "2 1 3\n1 3 2\n");
    let listing = list(&file)?;
    assert_eq!((listing.columns(), listing.payslips()), (2, 1));
    assert_eq!(
        (listing.steps(), listing.sheet().amounts()),
        (3, &[3, 2][..])
    );
    let squarings = Chain {
        columns: 1,
        steps: (1..=32).map(|v| [v, v]).collect(),
        outputs: vec![1],
    };
    for (bytes, number) in [
        (vec![], 6),
        (vec![0x20, 0, 0, 0], 7),
        (vec![0x20; 56_117], 6),
        (squarings.to_file()?, 13),
    ] {
        assert_eq!(list_text(&bytes), format!("refused {number}\n"));
        let refusal = list(&bytes).unwrap_err();
        assert_eq!((refusal.number(), refusal.place), (number, 0));
    }
    Ok(())
}

#[test]
fn largest() -> Result<(), Refusal> {
    let sheet = Sheet::new(
        MOST_COLUMNS,
        MOST_PAYSLIPS,
        [u32::MAX; MOST_COLUMNS * MOST_PAYSLIPS],
    )?;
    let chain = sheet.compile(Method::Partition(4))?;
    let mut text = format!("{MOST_COLUMNS} {MOST_PAYSLIPS} {}\n", chain.n());
    for payslip in 1..=MOST_PAYSLIPS {
        text += &format!("{payslip}{}\n", " 4294967295".repeat(MOST_COLUMNS));
    }
    let listing = list(&chain.to_file()?)?;
    assert_eq!(listing.to_string(), text);
    assert_eq!((listing.text(), listing.steps()), (&text[..], chain.n()));
    assert_eq!(listing.sheet(), &sheet);
    assert!(listing.rows().eq(sheet.rows()));
    Ok(())
}

/// A chain that makes the same payslip twice, with amounts that differ by column.
#[test]
fn rows_in_order() -> Result<(), Refusal> {
    let sheet = Sheet::from_rows([[3, 0, 2], [1, 2, 0], [0, 0, 2], [3, 0, 2]])?;
    for method in [Method::Straus(1), Method::Yao(2), Method::Partition(3)] {
        let chain = sheet.compile(method)?;
        let listing = list(&chain.to_file()?)?;
        assert_eq!((listing.sheet(), listing.steps()), (&sheet, chain.n()));
    }
    Ok(())
}
