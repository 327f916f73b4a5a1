//! Worked examples A and J through the wrapper.
use spoutbasket::{choose, Chain, Counts, Figures, Method, Refusal, Sheet};
use spoutbasket::{MOST_COLUMNS, MOST_PAYSLIPS, MOST_STEPS, MOST_VALUES};

const FILE_A: [u8; 7] = [0x11, 0x00, 0x00, 0x34, 0x5b, 0x86, 0x80];

/// The figures by compile, write, read, check and run, each on what the one before it gave. All of them have the same counts of the chain.
fn figures(
    sheet: &Sheet,
    method: Method,
    modulus: u32,
    bases: &[u32],
) -> Result<Vec<u32>, Refusal> {
    let (chain, counts) = sheet.compile_counted(method)?;
    assert_eq!(counts.steps, chain.n(), "{method}");
    assert_eq!(counts.squarings + counts.products, chain.n(), "{method}");
    let read = Chain::from_file_counted(&chain.to_file()?)?;
    assert_eq!(read, (chain, counts), "{method}");
    let (read, _) = read;
    assert_eq!(read.check(sheet)?, counts, "{method}");
    let run = read.run(modulus, bases)?;
    assert_eq!(run.counts, counts, "{method}");
    let path = Figures {
        figures: run.figures.clone(),
        multiplications: counts.steps,
    };
    assert_eq!(sheet.figures(method, modulus, bases), Ok(path), "{method}");
    Ok(run.figures)
}

#[test]
fn trial_a() -> Result<(), Refusal> {
    let sheet = Sheet::new(2, 1, [3, 2])?;
    let chain = sheet.compile(Method::Straus(1))?;
    assert_eq!(
        chain,
        Chain {
            columns: 2,
            steps: vec![[2, 1], [3, 3], [4, 1]],
            outputs: vec![5]
        }
    );
    assert_eq!(chain.to_file()?, FILE_A);
    assert_eq!(Chain::from_file(&FILE_A)?, chain);
    assert_eq!(Chain::try_from(&FILE_A[..])?, chain);
    let counts = Counts {
        steps: 3,
        squarings: 1,
        products: 2,
    };
    assert_eq!(chain.check(&sheet), Ok(counts));
    let (_, twice) = chain.pool_counted(&chain)?;
    assert_eq!((twice.steps, twice.squarings, twice.products), (6, 2, 4));
    assert_eq!(figures(&sheet, Method::Straus(1), 1_000, &[3, 5])?, [675]);
    Ok(())
}

#[test]
fn trial_j() -> Result<(), Refusal> {
    let sheet = Sheet::new(3, 4, [3, 0, 2, 1, 2, 0, 0, 0, 2, 3, 2, 1])?;
    let mut accepted = 0;
    for method in Method::all() {
        match figures(&sheet, method, 10_000, &[3, 5, 7]) {
            Ok(figures) => {
                assert_eq!(figures, [1323, 75, 49, 4725], "{method}");
                accepted += 1;
            }
            Err(refusal) => assert_eq!(refusal.number(), 3, "{method}"),
        }
    }
    // Straus with k up to 3 for three columns, Yao and partition with every parameter
    assert_eq!(accepted, 3 + 8 + 8);
    Sheet::new(5, 1, [1, 2, 3, 4, 5])?.compile(Method::Straus(2))?;
    Ok(())
}

/// A sheet with as many columns and payslips as there may be, and a chain with as many steps: what is lent is enough.
#[test]
fn largest() -> Result<(), Refusal> {
    let amounts: Vec<u32> = (0..(MOST_COLUMNS * MOST_PAYSLIPS) as u32)
        .map(|i| i.wrapping_mul(2_654_435_761) >> 20)
        .collect();
    let sheet = Sheet::new(MOST_COLUMNS, MOST_PAYSLIPS, amounts)?;
    let bases: Vec<u32> = (2..18).collect();
    let first = figures(&sheet, Method::Yao(4), u32::MAX, &bases)?;
    let second = figures(&sheet, Method::Partition(8), u32::MAX, &bases)?;
    assert_eq!(first, second);

    // each step multiplies the last value by a base, so that no exponent is large
    let columns = MOST_COLUMNS as u32;
    let steps: Vec<[u32; 2]> = (1..=MOST_STEPS as u32)
        .map(|s| [columns - 1 + s, 1 + s % columns])
        .collect();
    let chain = Chain {
        columns: MOST_COLUMNS,
        steps,
        outputs: vec![MOST_VALUES as u32 - 1; MOST_PAYSLIPS],
    };
    let file = chain.to_file()?;
    assert_eq!(file.len(), spoutbasket::LONGEST_FILE);
    assert_eq!(Chain::from_file(&file)?, chain);
    assert_eq!(
        chain.run(2, &[1; MOST_COLUMNS])?.figures,
        [1; MOST_PAYSLIPS]
    );
    assert_eq!(chain.check(&sheet).unwrap_err().number(), 14);
    Ok(())
}

/// The chooser hands back the lender's own bytes, the first of two equal files.
#[test]
fn chosen() -> Result<(), Refusal> {
    let sheet = Sheet::new(2, 1, [3, 2])?;
    let yao = sheet.compile(Method::Yao(1))?.to_file()?;
    let again = FILE_A;
    for (a, b, chosen) in [
        (&FILE_A[..], &yao[..], &FILE_A[..]),
        (&yao, &again, &again),
        (&FILE_A, &again, &FILE_A),
        (&[], &yao, &yao),
    ] {
        assert!(std::ptr::eq(choose(&sheet, a, b)?, chosen));
    }
    Ok(())
}
