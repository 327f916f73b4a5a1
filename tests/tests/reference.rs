//! The reference itself against the worked examples, so that an agreement with it means something.
use spoutbasket_tests::compiler::methods;
use spoutbasket_tests::random::{sheet, Random};
use spoutbasket_tests::reference::*;

#[test]
fn trials_a_to_f_and_i() {
    assert_eq!(
        make(2, 1, &[3, 2], 1, 1),
        (vec![(2, 1), (3, 3), (4, 1)], vec![5])
    );
    assert_eq!(
        make(2, 1, &[3, 2], 2, 1),
        (vec![(1, 1), (2, 2), (3, 1), (5, 4)], vec![6])
    );
    assert_eq!(
        make(2, 1, &[3, 2], 3, 2),
        (vec![(1, 1), (2, 2), (3, 1), (4, 2), (5, 4)], vec![7])
    );
    assert_eq!(
        make(1, 1, &[11], 1, 2),
        (vec![(1, 1), (2, 1), (2, 2), (4, 4), (5, 3)], vec![6])
    );
    assert_eq!(
        make(1, 1, &[11], 2, 2),
        (vec![(1, 1), (2, 2), (3, 1), (4, 1), (5, 4)], vec![6])
    );
    assert_eq!(make(1, 1, &[0], 1, 1), (vec![], vec![0]));
    assert_eq!(make(1, 1, &[u32::MAX], 1, 1).0.len(), 62);
}

/// Trials G and H: chains that no method here makes, held against their amounts.
#[test]
fn trials_g_and_h() {
    let g = [1, 1, 2, 1, 3, 2, 4, 2, 5, 5, 6, 6, 7, 7, 8, 5];
    let passed = Ok(vec![8, 4, 4]);
    assert_eq!(verify(1, &g, &[9], &[63], &mut [7; 10]), passed);
    assert_eq!(verify(1, &g, &[9], &[62], &mut [7; 10]), Err((14, 1)));
    let squarings: Vec<u32> = (1..=32).flat_map(|v| [v, v]).collect();
    assert_eq!(
        verify(1, &squarings[..62], &[32], &[1 << 31], &mut [7; 33]),
        Ok(vec![31, 31, 0])
    );
    assert_eq!(
        verify(1, &squarings, &[32], &[1 << 31], &mut [7; 34]),
        Err((13, 32))
    );
}

/// Worked example J, by every method and parameter, run over the bases 3, 5 and 7.
#[test]
fn trial_j() {
    let amounts = [3, 0, 2, 1, 2, 0, 0, 0, 2, 3, 2, 1];
    let want = [1323, 75, 49, 4725];
    for (i, figure_wanted) in want.into_iter().enumerate() {
        assert_eq!(
            figure(10_000, &[3, 5, 7], &amounts[3 * i..3 * i + 3]),
            figure_wanted
        );
    }
    for (method, k) in methods(3) {
        let (steps, outputs) = make(3, 4, &amounts, method, k);
        let flat: Vec<u32> = steps.iter().flat_map(|&(a, b)| [a, b]).collect();
        let (mut values, mut figures) = (vec![0; 4 + steps.len()], [0; 4]);
        assert_eq!(
            run(
                3,
                &flat,
                &outputs,
                10_000,
                &[3, 5, 7],
                &mut values,
                &mut figures
            ),
            Ok(counts(&steps))
        );
        assert_eq!(figures, want);
    }
}

/// What is easily read otherwise: tables are made for a sheet of zeros too, and for subsets that nobody uses; the larger number stands first.
#[test]
fn readings() {
    assert_eq!(
        make(2, 1, &[0, 0], 1, 1),
        (vec![(2, 1)], vec![0]),
        "Straus on a sheet of zeros"
    );
    assert_eq!(make(2, 1, &[0, 0], 2, 1), (vec![], vec![0]));
    assert_eq!(make(2, 1, &[0, 0], 3, 1), (vec![], vec![0]));
    // 4 takes one input of the group of three; the four subsets of two or more are made all the same
    assert_eq!(
        make(1, 1, &[4], 3, 3),
        (
            vec![(1, 1), (2, 2), (2, 1), (3, 1), (3, 2), (6, 1)],
            vec![3]
        )
    );
    // 5 takes values 1 and 3: the running product is value 1, and the larger number stands first all the same
    assert_eq!(
        make(1, 1, &[5], 3, 2),
        (vec![(1, 1), (2, 2), (2, 1), (3, 1)], vec![5])
    );
}

/// The counts of trial A, of no steps, and of equal values under different numbers.
#[test]
fn squarings_and_products() {
    assert_eq!(counts(&[(2, 1), (3, 3), (4, 1)]), [3, 1, 2]);
    assert_eq!(counts(&[]), [0, 0, 0]);
    assert_eq!(counts(&[(1, 1), (1, 1), (3, 2)]), [3, 2, 1]);
}

#[test]
fn file_of_trial_a() {
    let mut bytes = [9; 8];
    assert_eq!(write(2, &[2, 1, 3, 3, 4, 1], &[5], &mut bytes), Ok(vec![7]));
    assert_eq!(bytes, [0x11, 0, 0, 0x34, 0x5b, 0x86, 0x80, 9]);
    assert_eq!(listing(&bytes[..7]), "2 1 3\n1 3 2\n");
    assert_eq!(listing(&[]), "refused 6\n");
}

/// The pool of trials A and B, and of B and A; a place in the second part, and columns that differ.
#[test]
fn pools_of_trials_a_and_b() {
    let a: Part = (2, &[2, 1, 3, 3, 4, 1], &[5]);
    let b: Part = (2, &[1, 1, 2, 2, 3, 1, 5, 4], &[6]);
    let (mut steps, mut outputs) = ([9; 15], [9; 3]);
    assert_eq!(pool(a, b, &mut steps, &mut outputs), Ok(vec![7, 3, 4]));
    assert_eq!(steps, [2, 1, 3, 3, 4, 1, 1, 1, 2, 2, 6, 1, 8, 7, 9]);
    assert_eq!(outputs, [5, 9, 9]);
    assert_eq!(pool(b, a, &mut steps, &mut outputs), Ok(vec![7, 3, 4]));
    assert_eq!(steps, [1, 1, 2, 2, 3, 1, 5, 4, 2, 1, 7, 7, 8, 1, 9]);
    assert_eq!(outputs, [6, 9, 9]);
    let unfit: Part = (2, &[2, 1, 3, 0], &[5]);
    assert_eq!(pool(b, unfit, &mut steps, &mut outputs), Err((9, 6)));
    let narrow: Part = (1, &[], &[0]);
    assert_eq!(pool(a, narrow, &mut steps, &mut outputs), Err((17, 0)));
}

/// Packed fields read and written, by hand: every number and place, the order within a field, and what is left of the slice.
#[test]
fn fields_by_hand() {
    let fields = [0x00, 0x01, 0x68, 0x23, 0x3C, 0x99, 0x99, 0x99, 0x99, 0x9F];
    let mut amounts = [9; 3];
    assert_eq!(unpack(1, 2, &fields, &mut amounts), Ok(vec![2]));
    assert_eq!(amounts, [168_233, 999_999_999, 9]);
    let mut written = [9; 11];
    assert_eq!(pack(1, 2, &amounts[..2], &mut written), Ok(vec![2]));
    assert_eq!(written[..9], fields[..9]);
    assert_eq!(written[9..], [0x9C, 9]);
    for (last, refusal) in [
        (0x9D, (19, 2)),
        (0x0D, (19, 2)),
        (0xAD, (18, 2)),
        (0xAC, (18, 2)),
        (0x9E, (18, 2)),
        (0x9B, (18, 2)),
        (0x90, (18, 2)),
    ] {
        let unfit = [&fields[..9], &[last]].concat();
        assert_eq!(unpack(2, 1, &unfit, &mut amounts), Err(refusal));
    }
    assert_eq!(unpack(2, 1, &fields[..9], &mut amounts), Err((2, 0)));
    assert_eq!(unpack(2, 17, &fields, &mut amounts), Err((2, 0)));
    assert_eq!(unpack(17, 2, &fields, &mut amounts), Err((1, 0)));
    assert_eq!(unpack(2, 1, &fields, &mut amounts[..1]), Err((5, 0)));
    assert_eq!(amounts, [168_233, 999_999_999, 9]);
    let large = [0, 1_000_000_000];
    assert_eq!(pack(1, 2, &large, &mut written), Err((20, 2)));
    assert_eq!(pack(1, 1, &large, &mut written), Err((2, 0)));
    assert_eq!(pack(1, 0, &large, &mut written), Err((1, 0)));
    assert_eq!(pack(1, 1, &[7], &mut written[..4]), Err((5, 0)));
    assert_eq!(written[9..], [0x9C, 9]);
}

/// Counts and ceilings worked out by hand from the document's formulas.
#[test]
fn counts_and_ceilings() {
    for (p, q, amounts, method, k, counted, most) in [
        // trials A to F and I
        (2, 1, &[3, 2][..], 1, 1, 3, 3),
        (2, 1, &[3, 2], 2, 1, 4, 5),
        (2, 1, &[3, 2], 3, 2, 5, 5),
        (1, 1, &[11], 1, 2, 5, 5),
        (1, 1, &[11], 2, 2, 5, 5),
        (1, 1, &[0], 1, 1, 0, 0),
        (1, 1, &[u32::MAX], 1, 1, 62, 62),
        // 16 = 4^2 has three digits in base 4: 2 for the table, 2·2 squarings, no lower digit; the ceiling has 2·3
        (1, 1, &[16], 1, 2, 6, 8),
        // squarings 4; 16 has one digit: 0; the ceiling has 3 + 4 − 3
        (1, 1, &[16], 2, 2, 4, 8),
        // w = 5, squarings 4; groups of 2, 2 and 1: 1 + 1 + 0; one part: 0; the ceiling has 1·2
        (1, 1, &[16], 3, 2, 6, 8),
        // groups of 4 and 1: 11 + 0; one part, then two; the ceiling has 1·1
        (1, 1, &[16], 3, 4, 15, 16),
        (1, 1, &[31], 3, 4, 16, 16),
        // w = 7, squarings 6; groups of 4 and 3: 11 + 4; one part; the ceiling has 1·1
        (1, 1, &[64], 3, 4, 21, 22),
        // w = 8, squarings 7; two groups of 4: 11 + 11; one part; the ceiling has 1·1
        (1, 1, &[128], 3, 4, 29, 30),
        // w = 4 and w = 3, squarings 3 and 2; the one group has 4 or 3: 11 or 4
        (1, 1, &[8], 3, 4, 14, 14),
        (1, 1, &[4], 3, 8, 6, 6),
        // w = 3 + 2, squarings 2 + 1; groups of 4, over both columns, and 1: 11 + 0; parts 1, none and 2: 1; the ceiling has 3·1
        (2, 3, &[7, 0, 0, 0, 4, 3], 3, 4, 15, 17),
        // the second column and the second payslip are zero
        (2, 2, &[7, 0, 0, 0], 1, 1, 5, 5),
        (2, 2, &[7, 0, 0, 0], 2, 1, 4, 4),
        (2, 2, &[7, 0, 0, 0], 3, 1, 4, 6),
    ] {
        let case = format!("{p} {q} {amounts:?} method {method} parameter {k}");
        assert_eq!(count(p, q, amounts, method, k), counted, "{case}");
        assert_eq!(ceiling(p, q, amounts, method, k), most, "{case}");
        assert_eq!(make(p, q, amounts, method, k).0.len(), counted, "{case}");
    }
}

/// A compiled chain passes the check, and its steps are as many as counted and keep to the ceiling.
#[test]
fn compiled_chains_pass() {
    let mut r = Random(5);
    for _ in 0..400 {
        let (p, q) = (r.within(1, 5), r.within(1, 5));
        let bits = r.below(33);
        let amounts = sheet(&mut r, p, q, bits);
        for (method, k) in methods(p) {
            let (mut steps, mut outputs) = (vec![0; 2 * MOST_STEPS], vec![0; q]);
            let compiled = compile(p, q, &amounts, method, k, &mut steps, &mut outputs).unwrap();
            let n = compiled[0] as usize;
            assert_eq!(
                verify(
                    p,
                    &steps[..2 * n],
                    &outputs,
                    &amounts,
                    &mut vec![0; p + n + 1]
                ),
                Ok(compiled)
            );
            assert_eq!(n, count(p, q, &amounts, method, k));
            assert!(n <= ceiling(p, q, &amounts, method, k));
        }
    }
}
