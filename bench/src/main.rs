//! The library beside plain Rust, on the same input and machine, in one run. A ratio is plain Rust's time over the library's:
//! 1.0 or more means that the library is at least as fast. Nothing is asserted of times.
mod code;
mod methods;
mod plain;
mod sheet;

use spoutbasket::{LONGEST_FILE, MOST_COLUMNS, MOST_PAYSLIPS, MOST_STEPS, MOST_VALUES};
use spoutbasket_tests::ffi;
use spoutbasket_tests::random::{fields, legal_chain, Chain, Random};
use std::fmt::Debug;
use std::hint::black_box;
use std::time::Instant;

/// The median times of an odd number of rounds, in nanoseconds, the two jobs taking turns. What they answer is compared, so that
/// both have to make all of it.
fn medians<Ours: PartialEq<Theirs> + Debug, Theirs: Debug>(
    rounds: usize,
    mut ours: impl FnMut() -> Ours,
    mut theirs: impl FnMut() -> Theirs,
) -> (f64, f64) {
    let (mut our_times, mut their_times) = (vec![], vec![]);
    for _ in 0..rounds {
        let start = Instant::now();
        let our_answer = black_box(ours());
        our_times.push(start.elapsed().as_nanos());
        let start = Instant::now();
        let their_answer = black_box(theirs());
        their_times.push(start.elapsed().as_nanos());
        assert_eq!(our_answer, their_answer);
    }
    let median = |mut times: Vec<u128>| {
        times.sort();
        times[rounds / 2] as f64
    };
    (median(our_times), median(their_times))
}

fn report(job: &str, (ours, theirs): (f64, f64)) {
    println!(
        "{job:44} {:>10.1} µs  plain Rust {:>10.1} µs  ratio {:.2}",
        ours / 1e3,
        theirs / 1e3,
        theirs / ours
    );
}

/// The most steps over the most columns, whose exponents stay small: each step multiplies by a base.
fn long_chain() -> Chain {
    let mut r = Random(11);
    let (p, n) = (MOST_COLUMNS, MOST_STEPS);
    let steps = (1..=n)
        .flat_map(|s| [(p + s - 1) as u32, r.within(1, p) as u32])
        .collect();
    Chain {
        p,
        steps,
        outputs: (0..MOST_PAYSLIPS).map(|i| (p + n - i) as u32).collect(),
    }
}

fn main() {
    code::look();
    let c = long_chain();
    let all = spoutbasket_tests::reference::exponents(
        c.p,
        &spoutbasket_tests::reference::pairs(&c.steps),
    );
    let amounts: Vec<u32> = c
        .outputs
        .iter()
        .flat_map(|&o| all[o as usize].iter().map(|&e| e as u32))
        .collect();
    let (mut scratch, mut other) = (vec![0; MOST_VALUES], vec![0; MOST_VALUES]);
    report(
        &format!("check, {MOST_STEPS} steps, p = {MOST_COLUMNS}, q = {MOST_PAYSLIPS}"),
        medians(
            301,
            || {
                let amounts = black_box(&amounts);
                ffi::verify(c.p, &c.steps, &c.outputs, amounts, &mut scratch).unwrap()
            },
            || {
                let amounts = black_box(&amounts);
                plain::verify(c.p, &c.steps, &c.outputs, amounts, &mut other).unwrap()
            },
        ),
    );
    let scattered = legal_chain(
        &mut Random(12),
        MOST_COLUMNS,
        MOST_PAYSLIPS,
        MOST_STEPS,
        true,
    );
    for (name, chain) in [("each on the last", &c), ("scattered", &scattered)] {
        let m = 4_294_967_291;
        let bases: Vec<u32> = (0..MOST_COLUMNS as u32)
            .map(|i| 1_000_003 * (i + 1))
            .collect();
        let (mut values, mut other) = (vec![0; MOST_VALUES], vec![0; MOST_VALUES]);
        let (mut figures, mut other_figures) = (vec![0; MOST_PAYSLIPS], vec![0; MOST_PAYSLIPS]);
        report(
            &format!("run, {MOST_STEPS} steps, p = {MOST_COLUMNS}, {name}"),
            medians(
                1001,
                || {
                    ffi::run(
                        MOST_COLUMNS,
                        &chain.steps,
                        &chain.outputs,
                        black_box(m),
                        &bases,
                        &mut values,
                        &mut figures,
                    )
                    .unwrap()
                },
                || {
                    plain::run(
                        MOST_COLUMNS,
                        &chain.steps,
                        &chain.outputs,
                        black_box(m),
                        &bases,
                        &mut other,
                        &mut other_figures,
                    )
                    .unwrap()
                },
            ),
        );
        assert_eq!(figures, other_figures);
    }
    let (mut bytes, mut other) = (vec![0; LONGEST_FILE], vec![0; LONGEST_FILE]);
    report(
        &format!("write, a file of {LONGEST_FILE} bytes"),
        medians(
            1001,
            || {
                assert!(ffi::write(
                    MOST_COLUMNS,
                    black_box(&scattered.steps),
                    &scattered.outputs,
                    &mut bytes
                )
                .is_ok())
            },
            || {
                assert!(plain::write(
                    MOST_COLUMNS,
                    black_box(&scattered.steps),
                    &scattered.outputs,
                    &mut other
                )
                .is_ok())
            },
        ),
    );
    assert_eq!(bytes, other);
    let (mut steps, mut other_steps) = (vec![0; 2 * MOST_STEPS], vec![0; 2 * MOST_STEPS]);
    let (mut outputs, mut other_outputs) = (vec![0; MOST_PAYSLIPS], vec![0; MOST_PAYSLIPS]);
    report(
        &format!("read, a file of {LONGEST_FILE} bytes"),
        medians(
            1001,
            || ffi::read(black_box(&bytes), &mut steps, &mut outputs).unwrap(),
            || plain::read(black_box(&bytes), &mut other_steps, &mut other_outputs).unwrap(),
        ),
    );
    assert_eq!((&steps, &outputs), (&other_steps, &other_outputs));
    assert_eq!(steps, scattered.steps);
    pool();
    packed();
    sheet::measure();
}

/// The pool of two chains that have half of the most steps and payslips each.
fn pool() {
    let mut r = Random(14);
    let (n, q) = (MOST_STEPS / 2, MOST_PAYSLIPS / 2);
    let a = legal_chain(&mut r, MOST_COLUMNS, q, n, true);
    let b = legal_chain(&mut r, MOST_COLUMNS, q, n, true);
    let (mut steps, mut other_steps) = (vec![0; 2 * MOST_STEPS], vec![0; 2 * MOST_STEPS]);
    let (mut outputs, mut other_outputs) = (vec![0; MOST_PAYSLIPS], vec![0; MOST_PAYSLIPS]);
    report(
        &format!("pool of two chains of {n} steps"),
        medians(
            1001,
            || ffi::pool(black_box(a.part()), b.part(), &mut steps, &mut outputs).unwrap(),
            || {
                let (steps, outputs) = (&mut other_steps, &mut other_outputs);
                plain::pool(black_box(a.part()), b.part(), steps, outputs).unwrap()
            },
        ),
    );
    assert_eq!((steps, outputs), (other_steps, other_outputs));
}

/// The largest sheet read from packed fields and written as such.
fn packed() {
    let (p, q) = (MOST_COLUMNS, MOST_PAYSLIPS);
    let count = p * q;
    let fields = fields(&mut Random(15), p, q);
    let (mut amounts, mut other) = (vec![0; count], vec![0; count]);
    report(
        &format!("unpack, {p} by {q} fields"),
        medians(
            10_001,
            || assert!(ffi::unpack(p, q, black_box(&fields), &mut amounts).is_ok()),
            || assert!(plain::unpack(p, q, black_box(&fields), &mut other).is_ok()),
        ),
    );
    assert_eq!(amounts, other);
    let (mut bytes, mut other) = (vec![0; fields.len()], vec![0; fields.len()]);
    report(
        &format!("pack, {p} by {q} fields"),
        medians(
            10_001,
            || assert!(ffi::pack(p, q, black_box(&amounts), &mut bytes).is_ok()),
            || assert!(plain::pack(p, q, black_box(&amounts), &mut other).is_ok()),
        ),
    );
    assert_eq!(bytes, other);
}
