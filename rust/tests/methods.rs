//! Methods by name and number, and the best of them for a sheet.
use spoutbasket::{Method, Quote, Reason, Refusal, Sheet};
use spoutbasket::{MOST_COLUMNS, MOST_PAYSLIPS};

#[test]
fn all() {
    let all: Vec<Method> = Method::all().collect();
    let written: Vec<String> = all.iter().map(Method::to_string).collect();
    assert_eq!(
        written.join(" "),
        "straus:1 straus:2 straus:3 straus:4 straus:5 \
         yao:1 yao:2 yao:3 yao:4 yao:5 yao:6 yao:7 yao:8 \
         partition:1 partition:2 partition:3 partition:4 partition:5 partition:6 partition:7 partition:8"
    );
    assert!(all.windows(2).all(|pair| pair[0] < pair[1]));
    for (method, text) in all.iter().zip(&written) {
        assert_eq!(text.parse(), Ok(*method));
        assert_eq!(Method::try_from(method.numbers()), Ok(*method));
    }
}

#[test]
fn neither_name_nor_number() {
    let refused = Err(Refusal::from(Reason::Method));
    for text in [
        "",
        "straus",
        "straus:",
        "straus: 1",
        "straus:+1",
        "straus:-1",
        "straus:1 ",
        "Straus:1",
        "straus 1",
        "brauer:1",
        ":1",
        "straus:1:1",
        "yao:99999999999999999999",
    ] {
        assert_eq!(text.parse::<Method>(), refused, "{text}");
    }
    for number in [0, 4, usize::MAX] {
        assert_eq!(Method::try_from((number, 1)), refused);
    }
}

/// The parameter is the library's to judge.
#[test]
fn parameters() -> Result<(), Refusal> {
    let sheet = Sheet::new(1, 1, [11])?;
    for method in [
        "straus:0",
        "straus:6",
        "yao:0",
        "yao:9",
        "partition:0",
        "partition:9",
    ] {
        let refusal = sheet.compile(method.parse()?).unwrap_err();
        assert_eq!(refusal.reason, Reason::Method, "{method}");
    }
    Ok(())
}

/// The quote has the steps that compile makes, within the ceiling, and is refused the parameters that compile is.
#[test]
fn quotes() -> Result<(), Refusal> {
    for sheet in [
        Sheet::new(1, 1, [0])?,
        Sheet::new(3, 2, [3, 0, 2, 1, 200, 0])?,
        Sheet::new(11, 1, [1; 11])?,
    ] {
        for method in Method::all().chain([Method::Straus(0), Method::Yao(9), Method::Partition(0)])
        {
            match sheet.compile(method) {
                Ok(chain) => {
                    let Quote { count, ceiling } = sheet.ceiling(method)?;
                    assert_eq!(count, chain.n(), "{method}");
                    assert!(count <= ceiling, "{method}");
                }
                Err(refusal) => assert_eq!(sheet.ceiling(method), Err(refusal), "{method}"),
            }
        }
    }
    Ok(())
}

/// The best has the fewest steps of all that compile, and is the first with as few.
#[test]
fn best() -> Result<(), Refusal> {
    let mut word: u64 = 1;
    let mut amount = |bits: u32| {
        word = word.wrapping_mul(6_364_136_223_846_793_005).wrapping_add(1);
        (word >> (64 - bits)) as u32
    };
    let mut sheets = vec![
        Sheet::new(1, 1, [0])?,
        Sheet::new(2, 1, [3, 2])?,
        Sheet::new(11, 1, [1; 11])?,
    ];
    for (p, q, bits) in [(1, 1, 5), (2, 3, 8), (9, 48, 17), (16, 64, 12), (3, 64, 32)] {
        let amounts: Vec<u32> = (0..p * q).map(|_| amount(bits)).collect();
        sheets.push(Sheet::new(p, q, amounts)?);
    }
    for sheet in sheets {
        let counts: Vec<(usize, Method)> = Method::all()
            .filter_map(|method| Some((sheet.compile(method).ok()?.n(), method)))
            .collect();
        let fewest = counts.iter().map(|count| count.0).min().unwrap();
        let first = counts.iter().find(|count| count.0 == fewest).unwrap().1;
        let (method, chain, counts) = sheet.best_counted()?;
        assert_eq!((method, chain.n()), (first, fewest));
        assert_eq!(chain.check(&sheet)?, counts);
        assert_eq!((chain, counts), sheet.compile_counted(method)?);
        assert_eq!(sheet.best()?, (method, sheet.compile(method)?));
    }
    Ok(())
}

/// Every method makes the largest sheet that can be too long for it too long, but for the partition: it is the best there.
#[test]
fn too_long_for_some() -> Result<(), Refusal> {
    let sheet = Sheet::new(
        MOST_COLUMNS,
        MOST_PAYSLIPS,
        [u32::MAX; MOST_COLUMNS * MOST_PAYSLIPS],
    )?;
    assert_eq!(
        sheet.compile(Method::Yao(1)).unwrap_err().reason,
        Reason::Steps
    );
    // 31 squarings of each column; for each payslip 31 products a column, as many as there can be, and 15 to join them
    let most = 16 * 31 + 64 * (16 * 31 + 15);
    let quote = Quote {
        count: most,
        ceiling: most,
    };
    assert_eq!(sheet.ceiling(Method::Yao(1))?, quote);
    let (method, chain) = sheet.best()?;
    assert!(matches!(method, Method::Partition(_)), "{method}");
    chain.check(&sheet)?;
    Ok(())
}
