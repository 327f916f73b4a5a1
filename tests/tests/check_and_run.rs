//! The check and the run against the reference, every lent cell included, each with the steps lent flat and as structs.
use spoutbasket_tests::random::{bases, legal_chain, modulus, Chain, Random};
use spoutbasket_tests::reference::{MOST_COLUMNS, MOST_PAYSLIPS, MOST_STEPS};
use spoutbasket_tests::{ffi, reference};

/// The steps of a chain as pairs, which lie in memory as the library's structs do. An odd last number belongs to none.
fn structs(c: &Chain) -> Vec<[u32; 2]> {
    let pairs = reference::pairs(&c.steps).into_iter();
    pairs.map(|(first, second)| [first, second]).collect()
}

/// The check by the library and by the reference, on equal scratch: the same answer and the same cells.
fn same_check(c: &Chain, amounts: &[u32], scratch: &[u32]) -> reference::Answer {
    let (mut ours, mut theirs) = (scratch.to_vec(), scratch.to_vec());
    let got = ffi::verify(c.p, &c.steps, &c.outputs, amounts, &mut ours);
    let want = reference::verify(c.p, &c.steps, &c.outputs, amounts, &mut theirs);
    assert_eq!(got, want, "{c:?} {amounts:?}");
    assert_eq!(ours, theirs, "{c:?} {amounts:?}");
    let (steps, mut cells) = (structs(c), scratch.to_vec());
    let by_structs = ffi::verify_pairs(c.p, &steps, &c.outputs, amounts, &mut cells);
    assert_eq!(by_structs, got, "{c:?} {amounts:?}");
    assert_eq!(cells, ours, "{c:?} {amounts:?}");
    assert_eq!(steps, structs(c));
    got
}

/// The run likewise.
fn same_run(
    c: &Chain,
    m: u32,
    bases: &[u32],
    values: &[u32],
    figures: &[u32],
) -> (reference::Answer, Vec<u32>) {
    let (mut ours, mut theirs) = (values.to_vec(), values.to_vec());
    let (mut our_figures, mut their_figures) = (figures.to_vec(), figures.to_vec());
    let got = ffi::run(
        c.p,
        &c.steps,
        &c.outputs,
        m,
        bases,
        &mut ours,
        &mut our_figures,
    );
    let want = reference::run(
        c.p,
        &c.steps,
        &c.outputs,
        m,
        bases,
        &mut theirs,
        &mut their_figures,
    );
    assert_eq!(got, want, "{c:?} {m} {bases:?}");
    assert_eq!(ours, theirs, "{c:?} {m} {bases:?}");
    assert_eq!(our_figures, their_figures, "{c:?} {m} {bases:?}");
    let (steps, mut cells, mut places) = (structs(c), values.to_vec(), figures.to_vec());
    let by_structs = ffi::run_pairs(c.p, &steps, &c.outputs, m, bases, &mut cells, &mut places);
    assert_eq!(by_structs, got, "{c:?} {m} {bases:?}");
    assert_eq!(cells, ours, "{c:?} {m} {bases:?}");
    assert_eq!(places, our_figures, "{c:?} {m} {bases:?}");
    assert_eq!(steps, structs(c));
    (got, our_figures)
}

#[test]
fn random_legal_chains() {
    let mut r = Random(1);
    let mut passed = 0;
    for round in 0..6000 {
        let (p, q) = (r.within(1, MOST_COLUMNS), r.within(1, MOST_PAYSLIPS));
        let n = if round % 500 == 0 {
            r.within(15_000, MOST_STEPS)
        } else if r.one_in(3) {
            r.below(4)
        } else {
            r.below(120)
        };
        let c = legal_chain(&mut r, p, q, n, true);
        let needed = p + n + 1;
        let amounts = c.amounts().unwrap_or_else(|| vec![5; p * q]);
        let scratch = r.words(needed + round % 3);
        if same_check(&c, &amounts, &scratch).is_ok() {
            passed += 1;
        }
        let m = modulus(&mut r);
        let bases = bases(&mut r, p, m);
        let (values, places) = (r.words(needed + round % 4), r.words(q + round % 2));
        let (answer, figures) = same_run(&c, m, &bases, &values, &places);
        assert_eq!(answer, Ok(c.counts()));
        if let Some(sheet) = c.amounts() {
            for i in 0..q {
                assert_eq!(
                    figures[i],
                    reference::figure(m, &bases, &sheet[i * p..(i + 1) * p])
                );
            }
        }
    }
    assert!(passed > 3000, "only {passed} chains passed");
}

#[test]
fn damaged_chains_and_short_slices() {
    let mut r = Random(2);
    let mut seen = [0usize; 17];
    for _ in 0..60_000 {
        let n = if r.one_in(4) {
            r.within(40, 70)
        } else {
            r.below(20)
        };
        let (p, q) = (r.within(1, MOST_COLUMNS), r.within(1, 12));
        let slow = r.one_in(2);
        let mut c = legal_chain(&mut r, p, q, n, slow);
        let mut amounts = c.amounts().unwrap_or_else(|| vec![1; p * q]);
        let mut m = modulus(&mut r);
        let mut bases = bases(&mut r, p, m);
        let needed = p + n + 1;
        let (mut scratch, mut values, mut places) = (needed + 1, needed + 1, q + 1);
        for _ in 0..r.within(1, 2) {
            match r.below(14) {
                0 => c.p = r.pick(&[0, 17, usize::MAX, p + 1, p.saturating_sub(1)]),
                1 => c.outputs = if r.one_in(2) { vec![] } else { vec![0; 65] },
                2 => {
                    amounts.pop();
                }
                3 => amounts.push(1),
                4 if n > 0 => {
                    let i = r.below(2 * n);
                    c.steps[i] = 0;
                }
                5 if n > 0 => {
                    let i = r.below(2 * n);
                    c.steps[i] = r.pick(&[(p + i / 2 + 1) as u32, u32::MAX, (p + n) as u32]);
                }
                6 if n > 0 => {
                    let s = r.below(n);
                    c.steps.swap(2 * s, 2 * s + 1);
                }
                7 if !c.outputs.is_empty() => {
                    let i = r.below(c.outputs.len());
                    c.outputs[i] = r.pick(&[(p + n + 1) as u32, u32::MAX, (p + n) as u32]);
                }
                8 => scratch = r.pick(&[0, needed - 1, needed]),
                9 => {
                    values = r.pick(&[0, needed - 1, needed]);
                    places = r.pick(&[0, q - 1, q]);
                }
                10 if !amounts.is_empty() => {
                    let i = r.below(amounts.len());
                    amounts[i] ^= 1 << r.below(32);
                }
                11 => m = r.pick(&[0, 1]),
                12 => {
                    if r.one_in(2) {
                        bases.push(0)
                    } else if let Some(b) = bases.first_mut() {
                        *b = m
                    }
                }
                _ => c.steps.push(r.word() as u32),
            }
        }
        let (scratch, values, places) = (r.words(scratch), r.words(values), r.words(places));
        for answer in [
            same_check(&c, &amounts, &scratch),
            same_run(&c, m, &bases, &values, &places).0,
        ] {
            seen[answer.map_or_else(|(number, _)| number as usize, |_| 0)] += 1;
        }
    }
    for number in [0, 1, 2, 5, 9, 10, 11, 12, 13, 14, 15, 16] {
        assert!(
            seen[number] > 50,
            "answer {number} came only {} times",
            seen[number]
        );
    }
}

/// Every fault of a step at every step of chains of up to forty: steps are counted several at a time, and none of them may hide among the others.
#[test]
fn a_fault_at_every_step() {
    let mut r = Random(7);
    for n in 1..=40 {
        let p = r.within(2, MOST_COLUMNS);
        let c = legal_chain(&mut r, p, 1, n, true);
        let (cells, half) = (vec![9; p + n + 1], 1 << 31);
        for s in 0..n {
            let v = (p + s + 1) as u32;
            for (pair, number) in [
                ([0, 0], 9),
                ([v - 1, 0], 9),
                ([0, 1], 9),
                ([0, u32::MAX], 9),
                ([half, 0], 9),
                ([v, 1], 10),
                ([v, v], 10),
                ([1, v], 10),
                ([half, 1], 10),
                ([half, half], 10),
                ([u32::MAX, 1], 10),
                ([1, u32::MAX], 10),
                ([u32::MAX, u32::MAX], 10),
                ([1, 2], 11),
                ([v - 2, v - 1], 11),
            ] {
                let mut wrong = c.clone();
                wrong.steps[2 * s..2 * s + 2].copy_from_slice(&pair);
                let place = Err((number, s as u64 + 1));
                assert_eq!(same_check(&wrong, &vec![1; p], &cells), place);
                assert_eq!(same_run(&wrong, 7, &vec![3; p], &cells, &[9]).0, place);
            }
        }
    }
}

/// Slices of steps up to the limit and past it, sound or with one wrong step; of results one cell too long, just long enough and too short.
#[test]
fn lengths_near_the_limit() {
    for n in [
        MOST_STEPS - 1,
        MOST_STEPS,
        MOST_STEPS + 1,
        MOST_STEPS + 2,
        MOST_STEPS + 4_000,
    ] {
        for wrong in [None, Some(0), Some(n - 1)] {
            let mut c = Chain {
                p: 1,
                steps: vec![1; 2 * n],
                outputs: vec![1],
            };
            if let Some(s) = wrong {
                c.steps[2 * s + 1] = 0;
            }
            for cells in [n + 3, n + 2, n + 1] {
                let expected = match wrong {
                    _ if n > MOST_STEPS => Err((4, 0)),
                    Some(s) => Err((9, s as u64 + 1)),
                    None if cells < n + 2 => Err((5, 0)),
                    // every step squares the base
                    None => Ok(vec![n as u64, n as u64, 0]),
                };
                let checked = same_check(&c, &[1], &vec![9; cells]);
                assert_eq!(checked, expected);
                let (ran, _) = same_run(&c, 7, &[3], &vec![9; cells], &[9, 9]);
                assert_eq!(ran, expected);
            }
        }
    }
}

#[test]
fn squarings_at_the_limit() {
    for n in [31usize, 32, 33, 40] {
        let steps = (1..=n as u32).flat_map(|v| [v, v]).collect();
        let c = Chain {
            p: 1,
            steps,
            outputs: vec![32],
        };
        let answer = same_check(&c, &[1 << 31], &vec![9; n + 4]);
        let passed = Ok(vec![31, 31, 0]);
        assert_eq!(answer, if n == 31 { passed } else { Err((13, 32)) });
    }
}

/// 13 beats 14, and is the first step over all columns, also where no output uses it.
#[test]
fn first_place_over_all_columns() {
    // column 2 is too large from step 32 on, column 1 only at step 66
    let mut steps: Vec<u32> = vec![];
    for s in 0..32u32 {
        let v = if s == 0 { 2 } else { 2 + s };
        steps.extend([v, v]);
    }
    for s in 0..34u32 {
        let v = if s == 0 { 1 } else { 34 + s };
        steps.extend([v, v]);
    }
    let c = Chain {
        p: 2,
        steps,
        outputs: vec![0, 1],
    };
    assert_eq!(same_check(&c, &[9, 9, 9, 9], &[9; 80]), Err((13, 32)));
    let c = Chain {
        p: 2,
        steps: vec![],
        outputs: vec![0, 2, 1],
    };
    assert_eq!(same_check(&c, &[0, 0, 1, 1, 1, 0], &[9; 4]), Err((14, 2)));
}

/// Worked examples A, F and G, and the small examples of refusals.
#[test]
fn trials() {
    let a = Chain {
        p: 2,
        steps: vec![2, 1, 3, 3, 4, 1],
        outputs: vec![5],
    };
    assert_eq!(same_check(&a, &[3, 2], &[9; 7]), Ok(vec![3, 1, 2]));
    let (answer, figures) = same_run(&a, 1000, &[3, 5], &[9; 7], &[9; 2]);
    assert_eq!((answer, figures), (Ok(vec![3, 1, 2]), vec![675, 9]));
    assert_eq!(
        same_check(
            &Chain {
                outputs: vec![4],
                ..a.clone()
            },
            &[3, 2],
            &[9; 7]
        ),
        Err((14, 1))
    );
    let f = Chain {
        p: 1,
        steps: vec![],
        outputs: vec![0],
    };
    assert_eq!(same_run(&f, 1000, &[3], &[9; 2], &[9]).1, [1]);
    assert_eq!(same_run(&f, 1, &[0], &[9; 2], &[9]).1, [0]);
    assert_eq!(same_run(&f, 7, &[7], &[9; 2], &[9]).0, Err((16, 0)));
    assert_eq!(same_run(&f, 0, &[0], &[9; 2], &[9]).0, Err((15, 0)));
    let g = Chain {
        p: 1,
        steps: vec![1, 1, 2, 1, 3, 2, 4, 2, 5, 5, 6, 6, 7, 7, 8, 5],
        outputs: vec![9],
    };
    assert_eq!(same_check(&g, &[63], &[9; 10]), Ok(vec![8, 4, 4]));
}
