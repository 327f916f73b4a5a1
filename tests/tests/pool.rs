//! The pool against the reference, every lent cell included; what it makes, and what its figures are.
use spoutbasket_tests::ffi;
use spoutbasket_tests::random::{bases, legal_chain, modulus, Chain, Random};
use spoutbasket_tests::reference::{self, Answer, MOST_COLUMNS, MOST_PAYSLIPS, MOST_STEPS};

/// The pool by the library and by the reference, on equal slices: the same answer and the same cells, which are given back.
fn same_pool(a: &Chain, b: &Chain, steps: &[u32], outputs: &[u32]) -> (Answer, Vec<u32>, Vec<u32>) {
    let (mut ours, mut theirs) = (steps.to_vec(), steps.to_vec());
    let (mut our_outputs, mut their_outputs) = (outputs.to_vec(), outputs.to_vec());
    let got = ffi::pool(a.part(), b.part(), &mut ours, &mut our_outputs);
    let want = reference::pool(a.part(), b.part(), &mut theirs, &mut their_outputs);
    assert_eq!(got, want, "{a:?} {b:?}");
    assert_eq!(ours, theirs, "{a:?} {b:?}");
    assert_eq!(our_outputs, their_outputs, "{a:?} {b:?}");
    (got, ours, our_outputs)
}

/// The n, squarings and products of two parts together.
fn counts(a: &Chain, b: &Chain) -> Vec<u64> {
    let parts = a.counts().into_iter().zip(b.counts());
    parts.map(|(first, second)| first + second).collect()
}

/// The pool of two parts that pool, by the library.
fn pooled(a: &Chain, b: &Chain) -> Chain {
    let n = a.steps.len() / 2 + b.steps.len() / 2;
    let (mut steps, mut outputs) = (vec![9; 2 * n], vec![9; a.outputs.len() + b.outputs.len()]);
    let answer = ffi::pool(a.part(), b.part(), &mut steps, &mut outputs);
    assert_eq!(answer, Ok(counts(a, b)), "{a:?} {b:?}");
    let p = a.p;
    Chain { p, steps, outputs }
}

fn chain(p: usize, steps: &[u32], outputs: &[u32]) -> Chain {
    Chain {
        p,
        steps: steps.to_vec(),
        outputs: outputs.to_vec(),
    }
}

/// A legal chain with as many steps and outputs, each of them of the first base.
fn of_sizes(p: usize, n: usize, q: usize) -> Chain {
    chain(p, &vec![1; 2 * n], &vec![1; q])
}

/// Two legal parts over the same columns, some with a number after their steps that belongs to none.
fn legal_parts(r: &mut Random, most_steps: usize) -> (Chain, Chain) {
    let p = r.within(1, MOST_COLUMNS);
    let q = r.within(1, MOST_PAYSLIPS - 1);
    let rest = r.within(1, MOST_PAYSLIPS - q);
    let mut part = |q| {
        let (n, slow) = (r.below(most_steps + 1), !r.one_in(4));
        let mut part = legal_chain(r, p, q, n, slow);
        if r.one_in(3) {
            part.steps.push(r.word() as u32);
        }
        part
    };
    (part(q), part(rest))
}

#[test]
fn random_legal_parts() {
    let mut r = Random(51);
    for round in 0..6000 {
        let most_steps = match round % 600 {
            0 => MOST_STEPS / 2,
            _ => r.pick(&[0, 1, 4, 120]),
        };
        let (a, b) = legal_parts(&mut r, most_steps);
        let n = a.steps.len() / 2 + b.steps.len() / 2;
        let q = a.outputs.len() + b.outputs.len();
        let (steps, outputs) = (r.words(2 * n + round % 5), r.words(q + round % 3));
        let (answer, steps, outputs) = same_pool(&a, &b, &steps, &outputs);
        assert_eq!(answer, Ok(counts(&a, &b)));
        let pool = reference::pairs(&steps[..2 * n]);
        assert_eq!(reference::chain(a.p, &pool, &outputs[..q]), Ok(()));
    }
}

/// One or two faults in a part: its sizes, a step, an output.
fn damage(r: &mut Random, c: &mut Chain) {
    let (p, n) = (c.p, c.steps.len() / 2);
    for _ in 0..r.within(1, 2) {
        match r.below(12) {
            0 => c.p = r.pick(&[0, 17, usize::MAX, p.wrapping_add(1), p.saturating_sub(1)]),
            1 => c.outputs = vec![0; r.pick(&[0, 64, 65])],
            2 if r.one_in(8) => {
                c.steps = vec![1; 2 * r.pick(&[MOST_STEPS, MOST_STEPS + 1, MOST_STEPS + 70])]
            }
            3 | 4 if n > 0 => {
                let i = r.below(2 * n);
                c.steps[i] = 0;
            }
            5 | 6 if n > 0 => {
                let i = r.below(2 * n);
                let v = p.wrapping_add(i / 2 + 1) as u32;
                c.steps[i] = r.pick(&[v, v + 1, u32::MAX, p.wrapping_add(n) as u32]);
            }
            7 | 8 if n > 0 => {
                let s = r.below(n);
                c.steps.swap(2 * s, 2 * s + 1);
            }
            9 | 10 if !c.outputs.is_empty() => {
                let i = r.below(c.outputs.len());
                let last = p.wrapping_add(n) as u32;
                // among them the numbers that are none of the part's and may be some of the pool's
                c.outputs[i] = r.pick(&[last + 1, last + 2, last + 9, u32::MAX, last]);
            }
            _ => c.steps.push(r.word() as u32),
        }
    }
}

#[test]
fn damaged_parts_and_short_slices() {
    let mut r = Random(52);
    let mut seen = std::collections::BTreeMap::new();
    for _ in 0..60_000 {
        let most_steps = r.pick(&[3, 20]);
        let (mut a, mut b) = legal_parts(&mut r, most_steps);
        let damaged = r.below(5);
        if damaged == 1 || damaged == 3 {
            damage(&mut r, &mut a);
        }
        if damaged == 2 || damaged == 3 {
            damage(&mut r, &mut b);
        }
        let n = a.steps.len() / 2 + b.steps.len() / 2;
        let q = a.outputs.len() + b.outputs.len();
        let (mut cells, mut places) = (2 * n + r.below(4), q + r.below(3));
        if r.one_in(4) {
            cells = r.pick(&[
                0,
                cells,
                (2 * n).saturating_sub(1),
                (2 * n).saturating_sub(2),
            ]);
            places = r.pick(&[0, places, q.saturating_sub(1), q]);
        }
        let (steps, outputs) = (r.words(cells), r.words(places));
        let (answer, after, after_outputs) = same_pool(&a, &b, &steps, &outputs);
        if answer.is_err() {
            assert_eq!((&after, &after_outputs), (&steps, &outputs));
        }
        let part = match answer {
            Err((9..=11, place)) => place as usize > a.steps.len() / 2,
            Err((12, place)) => place as usize > a.outputs.len(),
            _ => false,
        };
        let number = answer.map_or_else(|(number, _)| number, |_| 0);
        *seen.entry((number, part)).or_insert(0) += 1;
    }
    // steps and outputs of the first part and of the second
    let placed = [9, 10, 11, 12].into_iter();
    let wanted = placed.flat_map(|number| [(number, false), (number, true)]);
    for case in wanted.chain([0, 1, 4, 5, 17].map(|number| (number, false))) {
        let times = seen.get(&case).copied().unwrap_or(0);
        assert!(times > 50, "{case:?} came {times} times: {seen:?}");
    }
}

/// The most steps and payslips, by parts of all kinds of sizes, and one more of each.
#[test]
fn sizes_at_the_limits() {
    for (n1, n2) in [
        (0, 0),
        (0, MOST_STEPS),
        (MOST_STEPS, 0),
        (1, MOST_STEPS - 1),
        (MOST_STEPS - 1, 1),
        (8_000, 8_000),
        (MOST_STEPS, 1),
        (1, MOST_STEPS),
        (8_000, 8_001),
        (MOST_STEPS, MOST_STEPS),
        (0, MOST_STEPS + 1),
        (MOST_STEPS + 1, 0),
        (MOST_STEPS + 1, MOST_STEPS + 1),
    ] {
        for (q1, q2) in [(1, 1), (32, 32), (1, 63), (63, 1)] {
            let (a, b) = (of_sizes(3, n1, q1), of_sizes(3, n2, q2));
            let (steps, outputs) = (vec![7; 2 * (n1 + n2)], vec![7; q1 + q2]);
            let want = match n1 + n2 <= MOST_STEPS {
                true => Ok(counts(&a, &b)),
                false => Err((4, 0)),
            };
            assert_eq!(same_pool(&a, &b, &steps, &outputs).0, want, "{n1} {n2}");
        }
    }
    for (q1, q2) in [
        (0, 1),
        (1, 0),
        (0, 0),
        (64, 1),
        (1, 64),
        (32, 33),
        (33, 32),
        (65, 1),
        (1, 65),
        (64, 64),
    ] {
        let (a, b) = (of_sizes(3, 2, q1), of_sizes(3, 2, q2));
        let (steps, outputs) = ([7; 8], vec![7; q1 + q2]);
        assert_eq!(same_pool(&a, &b, &steps, &outputs).0, Err((1, 0)));
    }
    for p in [1, MOST_COLUMNS] {
        let (a, b) = (of_sizes(p, 1, 1), of_sizes(p, 1, 1));
        assert_eq!(same_pool(&a, &b, &[7; 4], &[7; 2]).0, Ok(vec![2, 2, 0]));
        let b = of_sizes(MOST_COLUMNS + 1 - p, 1, 1);
        assert_eq!(same_pool(&a, &b, &[7; 4], &[7; 2]).0, Err((17, 0)));
    }
}

/// A full pool with room for just it, and with a cell too few of either kind.
#[test]
fn room() {
    let mut r = Random(53);
    let a = legal_chain(&mut r, MOST_COLUMNS, 30, 7_000, true);
    let b = legal_chain(&mut r, MOST_COLUMNS, 34, 9_000, true);
    let (steps, outputs) = (r.words(2 * MOST_STEPS), r.words(MOST_PAYSLIPS));
    for (cells, places, want) in [
        (2 * MOST_STEPS, MOST_PAYSLIPS, Ok(counts(&a, &b))),
        (2 * MOST_STEPS - 1, MOST_PAYSLIPS, Err((5, 0))),
        (2 * MOST_STEPS, MOST_PAYSLIPS - 1, Err((5, 0))),
        (0, 0, Err((5, 0))),
    ] {
        let (answer, ..) = same_pool(&a, &b, &steps[..cells], &outputs[..places]);
        assert_eq!(answer, want);
    }
}

/// Cases A and B pooled, by hand; and value 0, every base and every step's value of the second part, as operands and outputs.
#[test]
fn value_numbers() {
    let a = chain(2, &[2, 1, 3, 3, 4, 1], &[5]);
    let b = chain(2, &[1, 1, 2, 2, 3, 1, 5, 4], &[6]);
    let (answer, steps, outputs) = same_pool(&a, &b, &[9; 15], &[9; 3]);
    assert_eq!(answer, Ok(vec![7, 3, 4]));
    assert_eq!(steps, [2, 1, 3, 3, 4, 1, 1, 1, 2, 2, 6, 1, 8, 7, 9]);
    assert_eq!(outputs, [5, 9, 9]);

    let b = chain(2, &[2, 2, 3, 2, 4, 3], &[0, 1, 2, 3, 4, 5]);
    let (_, steps, outputs) = same_pool(&a, &b, &[9; 12], &[9; 7]);
    assert_eq!(steps, [2, 1, 3, 3, 4, 1, 2, 2, 6, 2, 7, 6]);
    assert_eq!(outputs, [5, 0, 1, 2, 6, 7, 8]);
    // the first part's numbers stay as they are
    let (_, steps, outputs) = same_pool(&b, &a, &[9; 12], &[9; 7]);
    assert_eq!(steps, [2, 2, 3, 2, 4, 3, 2, 1, 6, 6, 7, 1]);
    assert_eq!(outputs, [0, 1, 2, 3, 4, 5, 8]);
    // parts without steps
    let none = chain(2, &[], &[2, 0]);
    let (_, steps, outputs) = same_pool(&none, &b, &[9; 6], &[9; 8]);
    assert_eq!(
        (steps, outputs),
        (b.steps.clone(), vec![2, 0, 0, 1, 2, 3, 4, 5])
    );
    let (answer, ..) = same_pool(&none, &none, &[], &[9; 4]);
    assert_eq!(answer, Ok(vec![0, 0, 0]));
}

/// Where two refusals apply, the one that comes first in the order is the answer, and in each the first part comes before the second.
#[test]
fn orders() {
    let fit = chain(1, &[1, 1], &[2]);
    let many = of_sizes(1, 1, 64);
    let wide = chain(2, &[1, 1], &[2]);
    let long = of_sizes(1, MOST_STEPS + 1, 1);
    let wide_and_long = of_sizes(2, MOST_STEPS + 1, 1);
    let zero = chain(1, &[1, 1, 1, 0], &[2]);
    let high = chain(1, &[2, 1], &[2]);
    let late = chain(1, &[1, 1, 1, 2], &[9]);
    let above = chain(1, &[1, 1], &[2, 3]);
    for (a, b, refusal) in [
        (&many, &wide, (1, 0)),
        (&many, &long, (1, 0)),
        (&wide, &long, (17, 0)),
        (&long, &wide, (17, 0)),
        (&fit, &wide_and_long, (17, 0)),
        (&zero, &wide, (17, 0)),
        (&zero, &long, (4, 0)),
        (&long, &zero, (4, 0)),
        (&zero, &high, (9, 2)),
        (&high, &zero, (10, 1)),
        (&late, &zero, (11, 2)),
        // the steps of both come before the outputs of either
        (&above, &zero, (9, 3)),
        (&above, &late, (11, 3)),
        (&above, &above, (12, 2)),
        (&fit, &above, (12, 3)),
    ] {
        // all of these before 5
        for (cells, places) in [(0, 0), (8, 8)] {
            let (answer, ..) = same_pool(a, b, &vec![9; cells], &vec![9; places]);
            assert_eq!(answer, Err(refusal), "{a:?} {b:?}");
        }
    }
}

/// A value of the pool that is none of the second part's is refused there: each part is held against its own last value.
#[test]
fn values_of_the_other_part() {
    let a = chain(1, &[1, 1, 2, 2], &[3]);
    for (steps, outputs, refusal) in [
        (vec![1, 1, 3, 1], vec![2], (10, 4)),
        (vec![1, 1], vec![2, 3], (12, 3)),
    ] {
        let b = chain(1, &steps, &outputs);
        assert_eq!(same_pool(&a, &b, &[9; 8], &[9; 3]).0, Err(refusal));
    }
}

/// The check of a chain against some amounts, by the library.
fn check(c: &Chain, amounts: &[u32]) -> Answer {
    let mut scratch = vec![9; c.p + c.steps.len() / 2 + 1];
    ffi::verify(c.p, &c.steps, &c.outputs, amounts, &mut scratch)
}

/// The pool passes against one sheet above the other exactly if each part passes against its own; where only the second fails, the pool fails as it does,
/// at the same place counted on.
#[test]
fn passes_as_its_parts_do() {
    let mut r = Random(54);
    let mut seen = [[0; 2]; 2];
    for _ in 0..6000 {
        let (a, b) = legal_parts(&mut r, 60);
        let mut amounts = [&a, &b].map(|part| {
            let made = part.amounts();
            made.unwrap_or_else(|| vec![1; part.p * part.outputs.len()])
        });
        for amounts in &mut amounts {
            if r.one_in(3) {
                let i = r.below(amounts.len());
                amounts[i] ^= 1 << r.below(32);
            }
        }
        let [first, second] = [check(&a, &amounts[0]), check(&b, &amounts[1])];
        let both = check(&pooled(&a, &b), &amounts.concat());
        assert_eq!(both.is_ok(), first.is_ok() && second.is_ok());
        seen[first.is_ok() as usize][second.is_ok() as usize] += 1;
        if let (Ok(_), Err((number, place))) = (first, second) {
            let before = match number {
                13 => a.steps.len() / 2,
                _ => a.outputs.len(),
            };
            assert_eq!(both, Err((number, before as u64 + place)));
        }
    }
    assert!(seen.iter().flatten().all(|&times| times > 200), "{seen:?}");
}

/// Amounts that change places between the two sheets do not pass.
#[test]
fn each_part_makes_its_own_sheet() {
    let (a, b) = (chain(1, &[1, 1], &[2]), chain(1, &[1, 1, 2, 1], &[3]));
    let pool = pooled(&a, &b);
    assert_eq!(check(&pool, &[2, 3]), Ok(vec![3, 2, 1]));
    assert_eq!(check(&pool, &[3, 2]), Err((14, 1)));
}

/// The figures of a chain, by the library.
fn figures(c: &Chain, m: u32, bases: &[u32]) -> Vec<u32> {
    let n = c.steps.len() / 2;
    let (mut values, mut figures) = (vec![9; c.p + n + 1], vec![9; c.outputs.len()]);
    let answer = ffi::run(
        c.p,
        &c.steps,
        &c.outputs,
        m,
        bases,
        &mut values,
        &mut figures,
    );
    assert_eq!(answer, Ok(c.counts()));
    figures
}

#[test]
fn figures_of_the_first_and_then_of_the_second() {
    let mut r = Random(55);
    for round in 0..3000 {
        let (a, b) = legal_parts(&mut r, 60);
        let m = if round % 20 == 0 { 1 } else { modulus(&mut r) };
        let bases = bases(&mut r, a.p, m);
        let parts = [figures(&a, m, &bases), figures(&b, m, &bases)].concat();
        assert_eq!(figures(&pooled(&a, &b), m, &bases), parts);
    }
}
