//! The small example of each refusal, through the wrapper's types.
use spoutbasket::{choose, slices, Chain, Method, Reason, Refusal, Sheet};
use spoutbasket::{MOST_COLUMNS, MOST_PAYSLIPS, MOST_STEPS};

fn refused<T: std::fmt::Debug>(number: u32, place: usize, call: Result<T, Refusal>) {
    let refusal = call.unwrap_err();
    assert_eq!((refusal.number(), refusal.place), (number, place));
    assert_eq!(refusal.reason, Reason::from(number));
}

fn chain(columns: usize, steps: &[[u32; 2]], outputs: &[u32]) -> Chain {
    Chain {
        columns,
        steps: steps.to_vec(),
        outputs: outputs.to_vec(),
    }
}

/// The chain of case A, with some output.
fn case_a(output: u32) -> Chain {
    chain(2, &[[2, 1], [3, 3], [4, 1]], &[output])
}

/// 1 to 3: sheets and methods.
#[test]
fn sheets_and_methods() -> Result<(), Refusal> {
    for (p, q) in [(0, 1), (17, 1), (1, 0), (1, 65), (usize::MAX, usize::MAX)] {
        refused(1, 0, Sheet::new(p, q, vec![0; 64]));
    }
    refused(2, 0, Sheet::new(2, 1, [1, 2, 3]));
    refused(2, 0, Sheet::new(2, 1, []));
    let none: [[u32; 2]; 0] = [];
    refused(1, 0, Sheet::from_rows(none));
    refused(1, 0, Sheet::from_rows([[]]));
    refused(1, 0, Sheet::from_rows([[0; 17]]));
    refused(1, 0, Sheet::from_rows([[0; 2]; 65]));
    let uneven: [&[u32]; 2] = [&[1, 2], &[3]];
    refused(2, 0, Sheet::from_rows(uneven));
    // as many amounts as two columns times three payslips
    let uneven: [&[u32]; 3] = [&[1, 2], &[3], &[4, 5, 6]];
    refused(2, 0, Sheet::from_rows(uneven));
    refused(3, 0, Sheet::new(11, 1, [1; 11])?.compile(Method::Straus(1)));
    refused(
        3,
        0,
        Sheet::new(1, 1, [1])?.figures(Method::Yao(9), 7, &[2]),
    );
    Ok(())
}

/// 4: a chain that is lent and one that would be compiled.
#[test]
fn too_many_steps() -> Result<(), Refusal> {
    let long = chain(1, &[[1, 1]; MOST_STEPS + 1], &[1]);
    refused(4, 0, long.to_file());
    refused(4, 0, long.run(7, &[2]));
    refused(4, 0, long.check(&Sheet::new(1, 1, [1])?));
    let wide = Sheet::new(
        MOST_COLUMNS,
        MOST_PAYSLIPS,
        [u32::MAX; MOST_COLUMNS * MOST_PAYSLIPS],
    )?;
    refused(4, 0, wide.compile(Method::Yao(1)));
    Ok(())
}

/// 5: two pairs for case A. The wrapper's own calls lend enough; the library's functions take what they are lent.
#[test]
fn too_little_room() {
    let (mut steps, mut outputs, mut answer) = ([7; 4], [7], [7; 8]);
    let number = slices::compile(2, 1, &[3, 2], 1, 1, &mut steps, &mut outputs, &mut answer);
    assert_eq!((number, steps, outputs, answer), (5, [7; 4], [7], [0; 8]));
}

/// 6 to 8: bytes that are no file.
#[test]
fn files() {
    refused(6, 0, Chain::from_file(&[]));
    refused(
        6,
        0,
        Chain::from_file(&[0x11, 0x00, 0x00, 0x34, 0x5b, 0x86]),
    );
    refused(7, 0, Chain::from_file(&[0x20, 0x00, 0x00, 0x00]));
    refused(
        8,
        0,
        Chain::from_file(&[0x11, 0x00, 0x00, 0x34, 0x5b, 0x86, 0x81]),
    );
}

/// 1 and 9 to 12: chains that are not legal, by each call that is given a chain.
#[test]
fn chains() -> Result<(), Refusal> {
    for (number, place, columns, steps, output) in [
        (9, 1, 1, vec![[1, 0]], 0),
        (9, 2, 1, vec![[1, 1], [0, 2]], 0),
        (10, 1, 1, vec![[2, 1]], 0),
        (11, 1, 2, vec![[1, 2]], 0),
        (12, 1, 1, vec![], 2),
    ] {
        let chain = chain(columns, &steps, &[output]);
        refused(number, place, chain.to_file());
        refused(number, place, chain.run(7, &vec![2; columns]));
        refused(
            number,
            place,
            chain.check(&Sheet::new(columns, 1, vec![1; columns])?),
        );
    }
    for columns in [0, 17, usize::MAX] {
        let chain = chain(columns, &[[1, 1]], &[1]);
        refused(1, 0, chain.to_file());
        refused(1, 0, chain.run(7, &[2]));
        refused(1, 0, chain.check(&Sheet::new(1, 1, [1])?));
    }
    refused(1, 0, chain(1, &[], &[]).to_file());
    refused(1, 0, chain(1, &[], &[1; 65]).to_file());
    Ok(())
}

/// 2, 13 and 14: chains that are not the sheet's.
#[test]
fn other_amounts() -> Result<(), Refusal> {
    let squarings: Vec<[u32; 2]> = (1..=32).map(|v| [v, v]).collect();
    let sheet = Sheet::new(1, 1, [1 << 31])?;
    chain(1, &squarings[..31], &[32]).check(&sheet)?;
    refused(13, 32, chain(1, &squarings, &[32]).check(&sheet));

    let sheet = Sheet::new(2, 1, [3, 2])?;
    refused(14, 1, case_a(4).check(&sheet));
    refused(2, 0, case_a(5).check(&Sheet::new(2, 2, [3, 2, 3, 2])?));
    // one column and two payslips, with the same amounts
    let turned = chain(1, &[[1, 1], [2, 1]], &[3, 2]);
    turned.check(&Sheet::new(1, 2, [3, 2])?)?;
    refused(14, 0, turned.check(&sheet));
    refused(14, 0, choose(&sheet, &turned.to_file()?, &[]));
    refused(14, 1, choose(&sheet, &case_a(4).to_file()?, &[]));
    refused(6, 0, choose(&sheet, &[], &case_a(4).to_file()?));
    Ok(())
}

/// 15 and 16: moduli and bases.
#[test]
fn moduli_and_bases() {
    refused(15, 0, case_a(5).run(0, &[0, 0]));
    refused(16, 0, case_a(5).run(7, &[3, 7]));
    refused(16, 0, case_a(5).run(7, &[3]));
    refused(16, 0, case_a(5).run(7, &[3, 5, 2]));
}

/// 1, 17 and 4 of two parts and of both together, and what each part is refused for by itself, with its place in the pool.
#[test]
fn pools() -> Result<(), Refusal> {
    let (narrow, wide) = (chain(1, &[[1, 1]], &[2]), chain(2, &[], &[0]));
    refused(17, 0, narrow.pool(&wide));
    refused(17, 0, wide.pool(&narrow));
    let payslips = |q| chain(1, &[[1, 1]], &vec![2; q]);
    assert_eq!(payslips(63).pool(&narrow)?.outputs.len(), MOST_PAYSLIPS);
    refused(1, 0, payslips(MOST_PAYSLIPS).pool(&narrow));
    refused(1, 0, payslips(32).pool(&payslips(33)));
    refused(1, 0, payslips(65).pool(&narrow));
    refused(1, 0, narrow.pool(&payslips(0)));
    refused(1, 0, payslips(65).pool(&wide));
    let long = |n| chain(1, &vec![[1, 1]; n], &[1]);
    assert_eq!(long(MOST_STEPS - 1).pool(&narrow)?.n(), MOST_STEPS);
    refused(4, 0, long(MOST_STEPS).pool(&narrow));
    refused(4, 0, narrow.pool(&long(MOST_STEPS + 1)));
    refused(17, 0, long(MOST_STEPS + 1).pool(&wide));
    for (number, place, steps, output) in [
        (9, 1, vec![[1, 0]], 0),
        (10, 2, vec![[1, 1], [3, 1]], 0),
        (11, 2, vec![[1, 1], [1, 2]], 0),
        (12, 1, vec![[1, 1]], 3),
    ] {
        let unfit = chain(1, &steps, &[output]);
        refused(number, place, unfit.pool(&narrow));
        // after one step and one payslip
        refused(number, place + 1, narrow.pool(&unfit));
    }
    Ok(())
}

/// 1 and 17 of two sheets, 1 first.
#[test]
fn sheets_above_each_other() -> Result<(), Refusal> {
    let sheet = |p, q| Sheet::new(p, q, vec![7; p * q]);
    assert_eq!(sheet(3, 24)?.above(&sheet(3, 40)?)?, sheet(3, 64)?);
    refused(1, 0, sheet(3, 24)?.above(&sheet(3, 41)?));
    refused(1, 0, sheet(3, 64)?.above(&sheet(2, 1)?));
    refused(17, 0, sheet(3, 2)?.above(&sheet(2, 3)?));
    Ok(())
}

/// 1, 2, 18 and 19 of packed fields that are read, in this order, and 18 and 19 field by field; 20 of amounts that are written.
#[test]
fn packed_fields() -> Result<(), Refusal> {
    let (one, digit) = ([0, 0, 0, 0, 0x1c], [0, 0xa0, 0, 0, 0x1c]);
    let (sign, minus) = ([0, 0, 0, 0, 0x1e], [0, 0, 0, 0, 0x0d]);
    let both = [0x0a, 0, 0, 0, 0x1d];
    let sheet = |fields: [[u8; 5]; 2]| Sheet::from_packed(2, 1, fields.as_flattened());
    assert_eq!(sheet([one, one])?, Sheet::new(2, 1, [1, 1])?);
    for (p, q) in [(0, 1), (17, 1), (1, 0), (1, 65), (usize::MAX, usize::MAX)] {
        refused(1, 0, Sheet::from_packed(p, q, &digit));
    }
    for fields in [&[][..], &one, &one[..4], &[one, digit, one].concat()] {
        refused(2, 0, Sheet::from_packed(2, 1, fields));
    }
    for unfit in [digit, sign, both] {
        refused(18, 1, sheet([unfit, minus]));
        refused(18, 2, sheet([one, unfit]));
        refused(19, 1, sheet([minus, unfit]));
    }
    refused(19, 2, sheet([one, minus]));
    let most = Sheet::new(2, 1, [0, 999_999_999])?.to_packed()?;
    assert_eq!(most, [0, 0, 0, 0, 0x0c, 0x99, 0x99, 0x99, 0x99, 0x9c]);
    refused(20, 2, Sheet::new(2, 1, [7, 1_000_000_000])?.to_packed());
    refused(20, 1, Sheet::new(2, 1, [u32::MAX; 2])?.to_packed());
    Ok(())
}

/// Every reason stands at its number, and no number is lost.
#[test]
fn numbers() {
    use Reason::*;
    let reasons = [
        Sizes,
        Amounts,
        Method,
        Steps,
        Room,
        Length,
        Edition,
        Filling,
        OperandZero,
        OperandHigh,
        OperandOrder,
        Output,
        Exponent,
        Payslip,
        Modulus,
        Bases,
        Columns,
        PackedField,
        PackedMinus,
        PackedAmount,
    ];
    for (number, reason) in (1..).zip(reasons) {
        assert_eq!((Reason::from(number), reason.number()), (reason, number));
    }
    assert!(reasons.windows(2).all(|pair| pair[0] < pair[1]));
    for number in [0, 21, 101, u32::MAX] {
        assert_eq!(Reason::from(number), Other(number));
        assert_eq!(Reason::from(number).number(), number);
    }
}

#[test]
fn in_words() {
    let words = |number: u32, place| {
        let reason = Reason::from(number);
        let refusal = Refusal { reason, place };
        // what a `main` prints that returns it
        assert_eq!(format!("{refusal:?}"), refusal.to_string());
        refusal.to_string()
    };
    assert_eq!(words(1, 0), "refused 1: p or q out of range");
    assert_eq!(words(4, 0), "refused 4: more than 16,000 steps");
    assert_eq!(words(9, 3), "refused 9 at step 3: operand 0");
    assert_eq!(
        words(10, 2),
        "refused 10 at step 2: operand not below its own value"
    );
    assert_eq!(
        words(12, 2),
        "refused 12 at payslip 2: output above the last value"
    );
    assert_eq!(words(13, 32), "refused 13 at step 32: exponent too large");
    assert_eq!(
        words(14, 1),
        "refused 14 at payslip 1: an output's exponents are not its payslip"
    );
    assert_eq!(words(17, 0), "refused 17: column counts differ");
    assert_eq!(
        words(18, 2),
        "refused 18 at field 2: a digit above 9, or a sign that is not C, D or F"
    );
    assert!(words(19, 1).starts_with("refused 19 at field 1: sign D"));
    assert!(words(20, 1024).starts_with("refused 20 at field 1024: amount above 999,999,999"));
    assert_eq!(words(21, 0), "refused 21: no such refusal");
    assert_eq!(words(21, 3), "refused 21 at place 3: no such refusal");
    assert_eq!(words(u32::MAX, 0), "refused 4294967295: no such refusal");
    let error: Box<dyn std::error::Error> = Box::new(Refusal::from(Reason::Modulus));
    assert_eq!(error.to_string(), "refused 15: modulus 0");
}

#[test]
fn as_errors_of_input_and_output() {
    use std::io::{Error, ErrorKind};
    for (reason, kind) in [
        (Reason::Length, ErrorKind::InvalidData),
        (Reason::Method, ErrorKind::InvalidInput),
        (Reason::Room, ErrorKind::InvalidInput),
    ] {
        let error = Error::from(Refusal::from(reason));
        assert_eq!(error.kind(), kind);
        assert_eq!(error.to_string(), Refusal::from(reason).to_string());
    }
}
