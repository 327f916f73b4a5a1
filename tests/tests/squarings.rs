//! The counts of a chain, n, squarings and products: compile, read, check, pool and run answer the same three, and they are the reference's.
use spoutbasket_tests::ffi;
use spoutbasket_tests::random::{jobs_in_round, legal_chain, Chain, Random};
use spoutbasket_tests::reference::{Answer, Job};
use spoutbasket_tests::reference::{LONGEST_FILE, MOST_COLUMNS, MOST_PAYSLIPS, MOST_STEPS};

fn chain(p: usize, steps: &[u32], outputs: &[u32]) -> Chain {
    Chain {
        p,
        steps: steps.to_vec(),
        outputs: outputs.to_vec(),
    }
}

/// The steps as pairs; an odd last number belongs to none.
fn pairs(c: &Chain) -> Vec<[u32; 2]> {
    c.steps.chunks_exact(2).map(|s| [s[0], s[1]]).collect()
}

fn check(c: &Chain, amounts: &[u32]) -> Answer {
    let mut scratch = vec![9; c.p + c.steps.len() / 2 + 1];
    let flat = ffi::verify(c.p, &c.steps, &c.outputs, amounts, &mut scratch);
    let by_pairs = ffi::verify_pairs(c.p, &pairs(c), &c.outputs, amounts, &mut scratch);
    assert_eq!(flat, by_pairs);
    flat
}

fn run(c: &Chain, m: u32, bases: &[u32]) -> Answer {
    let (mut values, mut figures) = (vec![9; c.p + c.steps.len() / 2 + 1], vec![9; 64]);
    let (steps, outputs) = (&c.steps, &c.outputs);
    let flat = ffi::run(c.p, steps, outputs, m, bases, &mut values, &mut figures);
    let steps = pairs(c);
    let by_pairs = ffi::run_pairs(c.p, &steps, outputs, m, bases, &mut values, &mut figures);
    assert_eq!(flat, by_pairs);
    flat
}

/// What reading a chain's file answers.
fn read(c: &Chain) -> Answer {
    let mut file = vec![0; LONGEST_FILE];
    let length = ffi::write(c.p, &c.steps, &c.outputs, &mut file)?[0] as usize;
    let (mut steps, mut outputs) = (vec![9; 2 * MOST_STEPS], [9; MOST_PAYSLIPS]);
    ffi::read(&file[..length], &mut steps, &mut outputs)
}

fn pool(a: &Chain, b: &Chain) -> Answer {
    let (mut steps, mut outputs) = (vec![9; 2 * MOST_STEPS], [9; MOST_PAYSLIPS]);
    ffi::pool(a.part(), b.part(), &mut steps, &mut outputs)
}

/// A legal chain's counts, by every call that is given a chain. One that makes too large an exponent is not checked.
fn counted(c: &Chain, counts: &[u64]) {
    let [n, squarings, products] = counts else {
        panic!("three counts: {counts:?}");
    };
    assert_eq!(squarings + products, *n, "{c:?}");
    let (p, q) = (c.p, c.outputs.len());
    assert_eq!(read(c).unwrap(), [&[p as u64, q as u64], counts].concat());
    if let Some(amounts) = c.amounts() {
        assert_eq!(check(c, &amounts), Ok(counts.to_vec()), "{c:?}");
    }
    // the modulus makes all values equal, or the bases do
    for (m, base) in [(1, 0), (4_294_967_291, 1), (1000, 7)] {
        assert_eq!(run(c, m, &vec![base; p]), Ok(counts.to_vec()), "{c:?}");
    }
    if q < MOST_PAYSLIPS {
        let none = chain(p, &[], &[0]);
        assert_eq!(pool(c, &none), Ok(counts.to_vec()), "{c:?}");
        assert_eq!(pool(&none, c), Ok(counts.to_vec()), "{c:?}");
    }
    if 2 * q <= MOST_PAYSLIPS && 2 * n <= MOST_STEPS as u64 {
        let twice: Vec<u64> = counts.iter().map(|count| 2 * count).collect();
        assert_eq!(pool(c, c), Ok(twice), "{c:?}");
    }
}

/// A job's chain by compile, and its counts by all calls.
fn compiled(job: &Job) -> Vec<u64> {
    let (mut steps, mut outputs) = (vec![9; 2 * MOST_STEPS], vec![9; job.q]);
    let (p, q, method, k) = (job.p, job.q, job.method, job.parameter);
    let counts = ffi::compile(p, q, &job.amounts, method, k, &mut steps, &mut outputs).unwrap();
    assert_eq!(counts, job.counts(), "{job:?}");
    steps.truncate(2 * counts[0] as usize);
    counted(&Chain { p, steps, outputs }, &counts);
    counts
}

/// Every method and parameter on each of some sheets.
#[test]
fn random_sheets() {
    let mut r = Random(121);
    let mut seen = 0;
    for round in 0..100 {
        let jobs = jobs_in_round(&mut r, round).into_iter();
        for job in jobs.filter(|job| job.count() <= MOST_STEPS) {
            let counts = compiled(&job);
            seen += (counts[1] > 0 && counts[2] > 0) as usize;
        }
    }
    assert!(seen > 1000, "only {seen} chains have both kinds of steps");
}

#[test]
fn random_chains() {
    let mut r = Random(122);
    for round in 0..2000 {
        let (p, q) = (r.within(1, MOST_COLUMNS), r.within(1, MOST_PAYSLIPS));
        let n = match round % 200 {
            0 => r.within(15_000, MOST_STEPS),
            _ => r.below(200),
        };
        let slow = r.one_in(2);
        let mut c = legal_chain(&mut r, p, q, n, slow);
        counted(&c, &c.counts());
        // a number after the steps belongs to none, though it be equal to the one before it
        c.steps.push(c.steps.last().copied().unwrap_or(1));
        counted(&c, &c.counts());
    }
}

/// Every legal chain of one or two columns and up to three steps.
#[test]
fn every_short_chain() {
    let mut seen = 0;
    for p in [1, 2] {
        let mut chains = vec![vec![]];
        for n in 0..=3 {
            for steps in &chains {
                let c = chain(p, steps, &[(p + n) as u32]);
                counted(&c, &c.counts());
                seen += 1;
            }
            let last = (p + n) as u32;
            let operands = (1..=last).flat_map(|a| (1..=a).map(move |b| [a, b]));
            let operands: Vec<[u32; 2]> = operands.collect();
            let longer = chains.iter().flat_map(|steps: &Vec<u32>| {
                let longer = |pair: &[u32; 2]| [&steps[..], pair].concat();
                operands.iter().map(longer).collect::<Vec<_>>()
            });
            chains = longer.collect();
        }
    }
    assert_eq!(seen, (1 + 1 + 3 + 18) + (1 + 3 + 18 + 180));
}

/// Worked example A has one squaring and two products.
#[test]
fn example_a() {
    let a = Job::new(2, 1, &[3, 2], 1, 1);
    assert_eq!(compiled(&a), [3, 1, 2]);
    let c = chain(2, &[2, 1, 3, 3, 4, 1], &[5]);
    counted(&c, &[3, 1, 2]);
    assert_eq!(read(&c), Ok(vec![2, 1, 3, 1, 2]));
}

/// Squarings alone, products alone, and no steps.
#[test]
fn one_kind_of_steps() {
    let squarings: Vec<u32> = (1..=31).flat_map(|v| [v, v]).collect();
    counted(&chain(1, &squarings, &[32]), &[31, 31, 0]);
    let products: Vec<u32> = (2..=40).flat_map(|v| [v, 1]).collect();
    counted(&chain(2, &products, &[41]), &[39, 0, 39]);
    counted(&chain(1, &[], &[0]), &[0, 0, 0]);
    counted(&chain(3, &[], &[3, 0, 1]), &[0, 0, 0]);
    // the same by compile: a power of two, a sum of bases, and zeros
    assert_eq!(compiled(&Job::new(1, 1, &[1 << 31], 1, 1)), [31, 31, 0]);
    assert_eq!(compiled(&Job::new(3, 1, &[1, 1, 1], 2, 1)), [2, 0, 2]);
    assert_eq!(compiled(&Job::new(2, 2, &[0; 4], 2, 1)), [0, 0, 0]);
}

/// Values 2 and 3 are both the square of the base: what multiplies them is a product all the same.
#[test]
fn equal_values_under_different_numbers() {
    counted(&chain(1, &[1, 1, 1, 1, 3, 2], &[4]), &[3, 2, 1]);
    counted(&chain(1, &[1, 1, 1, 1, 3, 3], &[4]), &[3, 3, 0]);
    // two bases that are equal
    let c = chain(2, &[2, 1], &[3]);
    assert_eq!(run(&c, 10, &[3, 3]), Ok(vec![1, 0, 1]));
    // in a pool the second part's value 2 is another than the first's, and its base is the same
    let (a, b) = (chain(1, &[1, 1], &[2]), chain(1, &[1, 1, 2, 1], &[3]));
    assert_eq!(pool(&a, &b), Ok(vec![3, 2, 1]));
}

/// An odd last cell, equal to the cell before it or not, makes no step.
#[test]
fn odd_last_cell() {
    counted(&chain(1, &[1, 1, 2, 2, 2], &[3]), &[2, 2, 0]);
    counted(&chain(1, &[1, 1, 2, 1, 1], &[3]), &[2, 1, 1]);
    counted(&chain(1, &[1], &[1]), &[0, 0, 0]);
}

/// The most steps: squarings alone, products alone, and both by turns.
#[test]
fn longest_chains() {
    let most = MOST_STEPS as u64;
    counted(&chain(1, &vec![1; 2 * MOST_STEPS], &[1]), &[most, most, 0]);
    let products = [2, 1].repeat(MOST_STEPS);
    counted(&chain(2, &products, &[3]), &[most, 0, most]);
    let turns = [2, 2, 2, 1].repeat(MOST_STEPS / 2);
    counted(&chain(2, &turns, &[3]), &[most, most / 2, most / 2]);
    // two halves, one of each kind
    let half = |pair: [u32; 2]| chain(2, &pair.repeat(MOST_STEPS / 2), &[3]);
    let pooled = pool(&half([1, 1]), &half([2, 1]));
    assert_eq!(pooled, Ok(vec![most, most / 2, most / 2]));
}

/// What is refused answers its place and no counts, though steps before that place were counted.
#[test]
fn refused() {
    let squared = chain(1, &[1, 1, 2, 2, 3, 3], &[4]);
    assert_eq!(check(&squared, &[7]), Err((14, 1)));
    assert_eq!(check(&squared, &[8, 8]), Err((2, 0)));
    assert_eq!(run(&squared, 0, &[0]), Err((15, 0)));
    assert_eq!(run(&squared, 7, &[7]), Err((16, 0)));
    for (steps, number) in [
        (&[1, 1, 2, 2, 3, 0][..], 9),
        (&[1, 1, 2, 2, 4, 4], 10),
        (&[1, 1, 2, 2, 2, 3], 11),
    ] {
        let c = chain(1, steps, &[1]);
        let place = Err((number, 3));
        assert_eq!(check(&c, &[1]), place);
        assert_eq!(run(&c, 7, &[3]), place);
        assert_eq!(pool(&c, &squared), place);
        assert_eq!(pool(&squared, &c), Err((number, 6)));
    }
    let high = chain(1, &[1, 1], &[2, 3]);
    assert_eq!(check(&high, &[2, 3]), Err((12, 2)));
    assert_eq!(run(&high, 7, &[3]), Err((12, 2)));
    assert_eq!(pool(&squared, &high), Err((12, 3)));
    let large: Vec<u32> = (1..=32).flat_map(|v| [v, v]).collect();
    assert_eq!(check(&chain(1, &large, &[1]), &[1]), Err((13, 32)));

    // no room for the last step, or for the values
    let short = ffi::compile(2, 1, &[3, 2], 1, 1, &mut [9; 5], &mut [9]);
    assert_eq!(short, Err((5, 0)));
    let (steps, outputs) = (&squared.steps, &squared.outputs);
    let short = ffi::verify(1, steps, outputs, &[8], &mut [9; 4]);
    assert_eq!(short, Err((5, 0)));
    let short = ffi::run(1, steps, outputs, 7, &[3], &mut [9; 4], &mut [9]);
    assert_eq!(short, Err((5, 0)));
    let (first, second) = (squared.part(), high.part());
    assert_eq!(
        ffi::pool(first, second, &mut [9; 7], &mut [9; 3]),
        Err((12, 3))
    );
    assert_eq!(
        ffi::pool(first, first, &mut [9; 11], &mut [9; 2]),
        Err((5, 0))
    );

    // the file of example A with an operand 0 in its last step, and with too little room
    let file = [0x11, 0x00, 0x00, 0x34, 0x5b, 0x86, 0x80];
    let damaged = [0x11, 0x00, 0x00, 0x34, 0x5b, 0x82, 0x80];
    let read = |file: &[u8], cells| ffi::read(file, &mut vec![9; cells], &mut [9]);
    assert_eq!(read(&file, 6), Ok(vec![2, 1, 3, 1, 2]));
    assert_eq!(read(&file, 5), Err((5, 0)));
    assert_eq!(read(&damaged, 6), Err((9, 3)));
}
