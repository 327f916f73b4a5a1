//! The count and the ceiling against the reference and against compile, and the partition method's ceiling against what it was when the last group was
//! taken as full.
use spoutbasket_tests::compiler::methods;
use spoutbasket_tests::ffi;
use spoutbasket_tests::random::{self, damage, job_counting, jobs_in_round, Random};
use spoutbasket_tests::reference::{self, Answer, Job, MOST_COLUMNS, MOST_PAYSLIPS, MOST_STEPS};

/// What the library answers, which is what the reference does.
fn same_quote(job: &Job) -> Answer {
    let Job {
        p,
        q,
        ref amounts,
        method,
        parameter,
    } = *job;
    let got = ffi::ceiling(p, q, amounts, method, parameter);
    let want = reference::quote(p, q, amounts, method, parameter);
    assert_eq!(got, want, "{job:?}");
    got
}

/// The count and the ceiling of a job that is fit. The count is compile's n, and is told of a chain that is too long to compile too.
fn quoted(job: &Job) -> (usize, usize) {
    let values = same_quote(job).unwrap();
    let (count, ceiling) = (values[0] as usize, values[1] as usize);
    assert!(count <= ceiling, "{job:?}");
    let Job { p, q, amounts, .. } = job;
    let (mut steps, mut outputs) = (vec![0; 2 * MOST_STEPS], vec![0; MOST_PAYSLIPS]);
    let (method, k) = (job.method, job.parameter);
    let compiled = ffi::compile(*p, *q, amounts, method, k, &mut steps, &mut outputs);
    let fits = count <= MOST_STEPS;
    let wanted = if fits { Ok(values[0]) } else { Err((4, 0)) };
    assert_eq!(compiled.map(|counts| counts[0]), wanted, "{job:?}");
    if method == 3 {
        let (former, short) = with_all_full(job);
        assert!(ceiling <= former, "{job:?}");
        assert_eq!(ceiling < former, short, "{job:?}");
    }
    (count, ceiling)
}

/// The partition method's ceiling with G(2^c − c − 1), every group taken as full; and whether the last one is short.
fn with_all_full(job: &Job) -> (usize, bool) {
    let c = job.parameter;
    let most = |column: usize| job.amounts.iter().skip(column).step_by(job.p).max();
    let bits = |column: usize| (u32::BITS - most(column).unwrap().leading_zeros()) as usize;
    let bits: Vec<usize> = (0..job.p).map(bits).filter(|&bits| bits > 0).collect();
    let w: usize = bits.iter().sum();
    if w == 0 {
        return (0, false);
    }
    let groups = w.div_ceil(c);
    let former = w - bits.len() + groups * ((1 << c) - c - 1) + job.q * (groups - 1);
    (former, w < groups * c)
}

/// Every method and parameter on each of some sheets.
#[test]
fn random_sheets() {
    let mut r = Random(91);
    let (mut fit, mut too_long, mut short) = (0, 0, 0);
    for round in 0..400 {
        for job in jobs_in_round(&mut r, round) {
            let (count, _) = quoted(&job);
            fit += (count <= MOST_STEPS) as usize;
            too_long += (count > MOST_STEPS) as usize;
            short += (job.method == 3 && with_all_full(&job).1) as usize;
        }
    }
    assert!(fit > 5000, "only {fit} chains fit");
    assert!(too_long > 50, "only {too_long} chains were too long");
    assert!(short > 1000, "only {short} last groups were short");
}

/// Every number of inputs that a sheet can have, from none to 512, with every size of groups and so with last groups of every size.
#[test]
fn every_number_of_inputs() {
    for w in 0..=32 * MOST_COLUMNS {
        // columns of 32 bits, one of what is left, and zeros
        let bits = |column: usize| w.saturating_sub(32 * column).min(32);
        let highest = |column: usize| ((1u64 << bits(column)) / 2) as u32;
        let row: Vec<u32> = (0..MOST_COLUMNS).map(highest).collect();
        for c in 1..=8 {
            for q in [1, 2] {
                let job = Job::new(MOST_COLUMNS, q, &row.repeat(q), 3, c);
                let (_, ceiling) = quoted(&job);
                // a step for each input but the first of a column; each subset of two or more of a group; the groups joined
                let subsets = |g: usize| (1usize << g) - g - 1;
                let tables = w / c * subsets(c) + subsets(w % c);
                let joined = q * w.div_ceil(c).saturating_sub(1);
                let wanted = w - w.div_ceil(32) + tables + joined;
                assert_eq!(ceiling, wanted, "{w} inputs, {c}");
            }
        }
    }
}

/// The tariff's own example, w = 5 and c = 4, in which the groups come to 11 and no longer to 22; and each size of the last group with this w.
#[test]
fn the_tariffs_example() {
    let parts = |amounts: &[u32], c: usize| {
        let job = Job::new(1, amounts.len(), amounts, 3, c);
        let (_, ceiling) = quoted(&job);
        let joined = amounts.len() * (5usize.div_ceil(c) - 1);
        let rest = 4 + joined;
        (ceiling - rest, with_all_full(&job).0 - rest)
    };
    for amounts in [&[16][..], &[31], &[21, 0, 7]] {
        assert_eq!(parts(amounts, 4), (11, 22), "{amounts:?}");
        assert_eq!(parts(amounts, 1), (0, 0));
        assert_eq!(parts(amounts, 2), (1 + 1, 3));
        assert_eq!(parts(amounts, 3), (4 + 1, 8));
        assert_eq!(parts(amounts, 5), (26, 26));
        assert_eq!(parts(amounts, 8), (26, 247));
    }
    assert_eq!(quoted(&Job::new(1, 1, &[16], 3, 4)), (15, 16));
    assert_eq!(quoted(&Job::new(1, 1, &[31], 3, 4)), (16, 16));
}

/// Sheets at the edges by every method and parameter: nothing but zeros, the largest amounts, one payslip, one column, and the most of both.
#[test]
fn edges() {
    for p in [1, 2, 10, MOST_COLUMNS] {
        for q in [1, 2, MOST_PAYSLIPS] {
            for amount in [0, 1, 2, 1 << 31, u32::MAX] {
                for (method, k) in methods(p) {
                    quoted(&Job::new(p, q, &vec![amount; p * q], method, k));
                    // one amount alone, at either end
                    for at in [0, p * q - 1] {
                        let mut amounts = vec![0; p * q];
                        amounts[at] = amount;
                        quoted(&Job::new(p, q, &amounts, method, k));
                    }
                }
            }
        }
    }
    // of zeros Straus makes its table, and the others nothing
    let zeros = |method, k| quoted(&Job::new(2, 3, &[0; 6], method, k));
    assert_eq!(zeros(1, 5), (1021, 1021));
    assert_eq!([zeros(2, 8), zeros(3, 1), zeros(3, 8)], [(0, 0); 3]);
    // the largest of all: 512 inputs, 64 payslips; by Yao with 8 bits each of 1,024 amounts has the ceiling's 4 + 253
    let largest = |method, k| {
        let amounts = [u32::MAX; MOST_COLUMNS * MOST_PAYSLIPS];
        quoted(&Job::new(MOST_COLUMNS, MOST_PAYSLIPS, &amounts, method, k))
    };
    assert_eq!(largest(3, 1), (496 + 64 * 511, 496 + 64 * 511));
    assert_eq!(largest(2, 8).1, 16 * 24 + 1024 * 257 + 64 * 15);
}

/// A chain of exactly the most steps, and of one more, which compile refuses: both are answered.
#[test]
fn longest_chains() {
    for (method, k) in [(2, 1), (2, 8), (3, 1), (3, 2), (3, 8)] {
        for n in [MOST_STEPS, MOST_STEPS + 1] {
            assert_eq!(quoted(&job_counting(n, method, k)).0, n);
        }
    }
}

/// Each refusal beside a neighbour that is answered, and the earlier number where two are due.
#[test]
fn refusals_and_their_neighbours() {
    let number = |p: usize, q: usize, amounts: usize, method, k| {
        let told = same_quote(&Job::new(p, q, &vec![1; amounts], method, k));
        told.map_or_else(|refused| refused, |_| (0, 0))
    };
    let huge = [usize::MAX, 1 << 63, 1 << 32, (1 << 32) + 1];
    for (sizes, refused) in [([0, 17], true), ([1, MOST_COLUMNS], false)] {
        for p in sizes {
            assert_eq!(number(p, 1, p, 2, 1), (refused as u32, 0), "{p}");
        }
    }
    for (sizes, refused) in [([0, 65], true), ([1, MOST_PAYSLIPS], false)] {
        for q in sizes {
            assert_eq!(number(1, q, q, 2, 1), (refused as u32, 0), "{q}");
        }
    }
    for size in huge {
        assert_eq!(number(size, 1, 1, 2, 1), (1, 0));
        assert_eq!(number(1, size, 1, 2, 1), (1, 0));
        // p times q may be 0 or 1 in 64 bits
        assert_eq!(number(size, size, 0, 2, 1), (1, 0));
        assert_eq!(number(size, size, 1, 2, 1), (1, 0));
    }
    for (amounts, told) in [(0, 2), (5, 2), (6, 0), (7, 2), (12, 2)] {
        assert_eq!(number(2, 3, amounts, 1, 1), (told, 0), "{amounts}");
    }
    // every method and parameter, on every number of columns
    for p in 1..=MOST_COLUMNS {
        let legal = methods(p);
        for method in (0..=5).chain(huge) {
            for k in (0..=11).chain(huge) {
                let told = if legal.contains(&(method, k)) { 0 } else { 3 };
                assert_eq!(number(p, 1, p, method, k), (told, 0), "{p} {method} {k}");
            }
        }
    }
    assert_eq!(number(0, 1, 1, 0, 0), (1, 0));
    assert_eq!(number(2, 0, 1, 2, 1), (1, 0));
    assert_eq!(number(2, 1, 3, 0, 1), (2, 0));
    assert_eq!(number(2, 1, 1, 3, 9), (2, 0));
    assert_eq!(number(2, 1, 0, 2, usize::MAX), (2, 0));
    assert_eq!(number(11, 1, 11, 1, 1), (3, 0));
    // no amounts at all, whose pointer leads nowhere
    assert_eq!(ffi::ceiling(1, 1, &[], 1, 1), Err((2, 0)));
    assert_eq!(ffi::ceiling(0, 0, &[], 1, 1), Err((1, 0)));
}

/// Jobs with one or two things wrong: the first in the order 1, 2, 3 is told.
#[test]
fn damaged_jobs() {
    let mut r = Random(92);
    let mut seen = [0usize; 4];
    for _ in 0..30_000 {
        let mut job = random::job(&mut r, 6, 6);
        for _ in 0..r.below(3) {
            damage(&mut r, &mut job);
        }
        let told = same_quote(&job);
        seen[told.map_or_else(|(number, _)| number as usize, |_| 0)] += 1;
    }
    for (number, times) in seen.into_iter().enumerate() {
        assert!(times > 1000, "answer {number} came only {times} times");
    }
}
