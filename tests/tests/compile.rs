//! Compile against the plain compiler, step for step, every lent cell included.
use spoutbasket_tests::compiler::methods;
use spoutbasket_tests::ffi;
use spoutbasket_tests::random::{damage, job_counting, jobs_in_round, Random};
use spoutbasket_tests::reference::{self, Answer, Job, MOST_COLUMNS, MOST_PAYSLIPS, MOST_STEPS};

/// What compile answers and leaves in its two slices.
struct Compiled {
    answer: Answer,
    steps: Vec<u32>,
    outputs: Vec<u32>,
}

/// Compile by the library and by the reference into equal slices: the same answer and the same cells, untouched by a refusal.
fn same_compile(job: &Job, steps: &[u32], outputs: &[u32]) -> Compiled {
    let Job {
        p,
        q,
        ref amounts,
        method,
        parameter,
    } = *job;
    let (mut ours, mut theirs) = (steps.to_vec(), steps.to_vec());
    let (mut our_outputs, mut their_outputs) = (outputs.to_vec(), outputs.to_vec());
    let got = ffi::compile(
        p,
        q,
        amounts,
        method,
        parameter,
        &mut ours,
        &mut our_outputs,
    );
    let want = reference::compile(
        p,
        q,
        amounts,
        method,
        parameter,
        &mut theirs,
        &mut their_outputs,
    );
    assert_eq!(got, want, "{job:?}");
    assert_eq!(ours, theirs, "{job:?}");
    assert_eq!(our_outputs, their_outputs, "{job:?}");
    if got.is_err() {
        assert_eq!((&ours[..], &our_outputs[..]), (steps, outputs), "{job:?}");
    }
    Compiled {
        answer: got,
        steps: ours,
        outputs: our_outputs,
    }
}

/// An accepted job: n is the count and keeps to the ceiling.
fn accepted(job: &Job, steps: &[u32], outputs: &[u32]) -> Compiled {
    let got = same_compile(job, steps, outputs);
    let n = got.answer.as_ref().map(|counts| counts[0]);
    assert_eq!(n, Ok(job.count() as u64), "{job:?}");
    assert!(job.count() <= job.ceiling(), "{job:?}");
    got
}

/// Every method and parameter on each of some sheets, into slices with and without cells to spare.
#[test]
fn random_sheets() {
    let mut r = Random(41);
    let (mut compiled, mut too_long) = (0, 0);
    for round in 0..400 {
        for job in jobs_in_round(&mut r, round) {
            let n = job.count();
            // cells to spare, an odd one among them
            let spare = r.pick(&[0, 0, 1, 2, 3]);
            let (steps, outputs) = (r.words(2 * n + spare), r.words(job.q + round % 3));
            if n <= reference::MOST_STEPS {
                accepted(&job, &steps, &outputs);
                compiled += 1;
            } else {
                let answer = same_compile(&job, &steps, &outputs).answer;
                assert_eq!(answer, Err((4, 0)));
                too_long += 1;
            }
        }
    }
    assert!(compiled > 5000, "only {compiled} sheets compiled");
    assert!(too_long > 50, "only {too_long} chains were too long");
}

/// All sheets of up to two columns and two payslips with amounts up to 7, by every legal method and parameter.
#[test]
fn every_small_sheet() {
    let (steps, outputs) = (vec![9; 2100], [9; 3]);
    let mut compiled = 0;
    for (p, q) in [(1, 1), (1, 2), (2, 1), (2, 2)] {
        for number in 0..1u32 << (3 * p * q) {
            let amounts: Vec<u32> = (0..p * q).map(|i| number >> (3 * i) & 7).collect();
            let mut job = Job::new(p, q, &amounts, 1, 1);
            for (method, k) in methods(p) {
                (job.method, job.parameter) = (method, k);
                accepted(&job, &steps, &outputs);
                compiled += 1;
            }
            // just outside each range
            for (method, k) in [
                (0, 1),
                (1, 0),
                (1, 6),
                (2, 0),
                (2, 9),
                (3, 0),
                (3, 9),
                (4, 1),
            ] {
                (job.method, job.parameter) = (method, k);
                assert_eq!(
                    same_compile(&job, &steps, &outputs).answer,
                    Err((3, 0)),
                    "{job:?}"
                );
            }
        }
    }
    assert_eq!(compiled, (8 + 64 + 64 + 4096) * 21);
}

/// Jobs with one or two things wrong: the first in the order 1, 2, 3, 4, 5 is told, and no lent cell changes.
#[test]
fn damaged_jobs_and_short_slices() {
    let mut r = Random(42);
    let mut seen = [0usize; 6];
    // a chain too long by every method that can be
    let long = job_counting(MOST_STEPS + 1, 3, 1).amounts;
    for _ in 0..30_000 {
        let mut job = if r.one_in(60) {
            let (method, k) = r.pick(&[(2, 1), (2, 8), (3, 1)]);
            Job::new(MOST_COLUMNS, MOST_PAYSLIPS, &long, method, k)
        } else {
            spoutbasket_tests::random::job(&mut r, 6, 6)
        };
        let n = job.count().min(reference::MOST_STEPS);
        let (mut cells, mut outputs) = (2 * n, job.q);
        for _ in 0..r.below(3) {
            match r.below(9) {
                0 => cells = r.pick(&[0, cells.saturating_sub(1), cells.saturating_sub(2)]),
                1 => outputs = r.pick(&[0, job.q.min(MOST_PAYSLIPS).saturating_sub(1)]),
                2 => cells += 1,
                _ => damage(&mut r, &mut job),
            }
        }
        let (steps, outputs) = (r.words(cells), r.words(outputs));
        let answer = same_compile(&job, &steps, &outputs).answer;
        seen[answer.map_or_else(|(number, _)| number as usize, |_| 0)] += 1;
    }
    for (number, times) in seen.into_iter().enumerate() {
        assert!(times > 100, "answer {number} came only {times} times");
    }
}

/// Chains of exactly the most steps are compiled, and of one more refused, by every method and parameter that can get there: Straus stays below 5,000,
/// partition with 3 to 7 below 14,000.
#[test]
fn longest_chains() {
    let reaching = (1..=8).map(|k| (2, k)).chain([1, 2, 8].map(|c| (3, c)));
    for (method, k) in reaching {
        let job = job_counting(MOST_STEPS, method, k);
        accepted(&job, &[9; 2 * MOST_STEPS], &[9; MOST_PAYSLIPS]);
        let short = same_compile(&job, &[9; 2 * MOST_STEPS - 1], &[9; MOST_PAYSLIPS]).answer;
        assert_eq!(short, Err((5, 0)));
        let job = job_counting(MOST_STEPS + 1, method, k);
        assert_eq!(job.count(), MOST_STEPS + 1);
        for cells in [0, 2 * MOST_STEPS, 2 * (MOST_STEPS + 1)] {
            let answer = same_compile(&job, &vec![9; cells], &[9; MOST_PAYSLIPS]).answer;
            assert_eq!(answer, Err((4, 0)));
        }
    }
}

/// Each refusal beside a neighbour that is accepted.
#[test]
fn refusals_and_their_neighbours() {
    let answer = |p, q, amounts: usize, method, k| {
        let job = Job::new(p, q, &vec![1; amounts], method, k);
        same_compile(&job, &[9; 2500], &[9; MOST_PAYSLIPS])
            .answer
            .map_or_else(|refused| refused, |_| (0, 0))
    };
    for (p, q, number) in [
        (0, 1, 1),
        (1, 1, 0),
        (MOST_COLUMNS, 1, 0),
        (17, 1, 1),
        (1, 0, 1),
        (1, MOST_PAYSLIPS, 0),
        (1, 65, 1),
        (MOST_COLUMNS, MOST_PAYSLIPS, 0),
    ] {
        assert_eq!(answer(p, q, p * q, 2, 1), (number, 0), "{p} {q}");
    }
    for (amounts, number) in [(0, 2), (5, 2), (6, 0), (7, 2), (12, 2)] {
        assert_eq!(answer(2, 3, amounts, 1, 1), (number, 0), "{amounts}");
    }
    for (p, method, k, number) in [
        (1, 0, 1, 3),
        (1, 4, 1, 3),
        (10, 1, 1, 0),
        (11, 1, 1, 3),
        (5, 1, 2, 0),
        (6, 1, 2, 3),
        (5, 1, 3, 3),
        (3, 1, 3, 0),
        (4, 1, 3, 3),
        (2, 1, 4, 0),
        (3, 1, 4, 3),
        (2, 1, 5, 0),
        (3, 1, 5, 3),
        (1, 1, 0, 3),
        (1, 1, 5, 0),
        (1, 1, 6, 3),
        (2, 1, 1 << 63, 3),
        (MOST_COLUMNS, 2, 0, 3),
        (MOST_COLUMNS, 2, 1, 0),
        (MOST_COLUMNS, 2, 8, 0),
        (MOST_COLUMNS, 2, 9, 3),
        (MOST_COLUMNS, 3, 0, 3),
        (MOST_COLUMNS, 3, 1, 0),
        (MOST_COLUMNS, 3, 8, 0),
        (MOST_COLUMNS, 3, 9, 3),
    ] {
        assert_eq!(
            answer(p, 2, 2 * p, method, k),
            (number, 0),
            "{p} {method} {k}"
        );
    }
    // case A has three pairs and one output; an odd cell is no pair
    for (cells, outputs, number) in [(6, 1, 0), (7, 2, 0), (5, 1, 5), (4, 1, 5), (6, 0, 5)] {
        let a = Job::new(2, 1, &[3, 2], 1, 1);
        let got = same_compile(&a, &vec![9; cells], &vec![9; outputs]);
        let told = got.answer.map_or_else(|refused| refused, |_| (0, 0));
        assert_eq!(told, (number, 0), "{cells} {outputs}");
    }
    // the earlier number is told where two are due
    assert_eq!(answer(0, 1, 1, 2, 1), (1, 0));
    assert_eq!(answer(2, 1, 3, 0, 1), (2, 0));
    let long = job_counting(MOST_STEPS + 1, 2, 8);
    let wrong = Job {
        parameter: 9,
        ..long.clone()
    };
    assert_eq!(same_compile(&wrong, &[], &[]).answer, Err((3, 0)));
    assert_eq!(same_compile(&long, &[], &[]).answer, Err((4, 0)));
}

/// Trials A to F and I as the document lists them.
#[test]
fn trials() {
    let compiled = |p, q, amounts: &[u32], method, k| {
        let job = Job::new(p, q, amounts, method, k);
        let got = accepted(&job, &[9; 140], &[9; 5]);
        let n = job.count();
        (got.steps[..2 * n].to_vec(), got.outputs[..q].to_vec())
    };
    for (p, amounts, method, k, steps, output) in [
        (2, &[3, 2][..], 1, 1, &[2, 1, 3, 3, 4, 1][..], 5),
        (2, &[3, 2], 2, 1, &[1, 1, 2, 2, 3, 1, 5, 4], 6),
        (2, &[3, 2], 3, 2, &[1, 1, 2, 2, 3, 1, 4, 2, 5, 4], 7),
        (1, &[11], 1, 2, &[1, 1, 2, 1, 2, 2, 4, 4, 5, 3], 6),
        (1, &[11], 2, 2, &[1, 1, 2, 2, 3, 1, 4, 1, 5, 4], 6),
        (1, &[0], 1, 1, &[], 0),
    ] {
        let got = compiled(p, 1, amounts, method, k);
        assert_eq!(got, (steps.to_vec(), vec![output]), "{amounts:?}");
    }
    let (steps, outputs) = compiled(1, 1, &[u32::MAX], 1, 1);
    assert_eq!((steps.len(), outputs), (2 * 62, vec![63]));
    // Straus p = 5, k = 2: the table has the square of each base
    let job = Job::new(5, 1, &[1; 5], 1, 2);
    let answer = accepted(&job, &[9; 2036], &[9]).answer;
    assert_eq!(answer, Ok(vec![1018, 5, 1013]));
}
