//! The whole path, compile, write, read, check and run, against the reference and the plain power loop, every lent cell included.
use spoutbasket_tests::compiler::methods;
use spoutbasket_tests::ffi;
use spoutbasket_tests::random::{bases, job, job_counting, modulus, Random};
use spoutbasket_tests::reference::{
    self, Answer, Job, Lent, MOST_COLUMNS, MOST_PAYSLIPS, MOST_STEPS,
};

/// Slices for a job's path with just the cells that it needs and `spare` more, whatever they hold.
fn lent(r: &mut Random, job: &Job, spare: usize) -> Lent {
    let n = job.count();
    let length = reference::file_length(job.p, job.q, n);
    Lent {
        steps: r.words(2 * n + spare),
        outputs: r.words(job.q + spare),
        bytes: (0..length + spare).map(|_| r.word() as u8).collect(),
        read_steps: r.words(2 * n + spare),
        read_outputs: r.words(job.q + spare),
        scratch: r.words(job.p + n + 1 + spare),
        values: r.words(job.p + n + 1 + spare),
        figures: r.words(job.q + spare),
    }
}

/// The path by the library and by the reference on equal slices: the same answer and the same cells.
fn same_path(job: &Job, m: u32, bases: &[u32], lent: &Lent) -> (Answer, Lent) {
    let (mut ours, mut theirs) = (lent.clone(), lent.clone());
    let got = ffi::path(job, m, bases, &mut ours);
    let want = reference::path(job, m, bases, &mut theirs);
    assert_eq!(got, want, "{job:?} {m} {bases:?}");
    assert_eq!(ours, theirs, "{job:?} {m} {bases:?}");
    (got, ours)
}

/// The figures that the power loop gives.
fn figures(job: &Job, m: u32, bases: &[u32]) -> Vec<u32> {
    job.amounts
        .chunks_exact(job.p)
        .map(|payslip| reference::figure(m, bases, payslip))
        .collect()
}

/// An accepted job: the path succeeds, each n that it answers is the count, which keeps to the ceiling, and the figures are the power loop's.
fn walk(r: &mut Random, job: &Job, m: u32, bases: &[u32], spare: usize) -> Lent {
    let lent = lent(r, job, spare);
    let (answer, after) = same_path(job, m, bases, &lent);
    let n = job.count();
    assert_eq!(answer, Ok(vec![n as u64; 3]), "{job:?}");
    assert!(n <= job.ceiling(), "{job:?}");
    assert_eq!(after.figures[..job.q], figures(job, m, bases), "{job:?}");
    after
}

/// 1, 2 and the largest modulus in turn, and others.
fn some_modulus(r: &mut Random, round: usize) -> u32 {
    match round % 5 {
        0 => 1,
        1 => 2,
        2 => u32::MAX,
        _ => modulus(r),
    }
}

#[test]
fn random_sheets() {
    let mut r = Random(51);
    let mut walked = 0;
    for round in 0..3000 {
        let job = if round % 20 == 0 {
            job(&mut r, MOST_COLUMNS, MOST_PAYSLIPS)
        } else {
            job(&mut r, 8, 8)
        };
        if job.count() <= reference::MOST_STEPS {
            let m = some_modulus(&mut r, round);
            let bases = bases(&mut r, job.p, m);
            walk(&mut r, &job, m, &bases, round % 4);
            walked += 1;
        }
    }
    assert!(walked > 2900, "only {walked} sheets walked");
}

/// Cuts the last cell off a slice; how many calls are done before the one that needs it.
fn shorten(lent: &mut Lent, slice: &str) -> usize {
    let (numbers, calls_done) = match slice {
        "bytes" => {
            lent.bytes.pop();
            return 1;
        }
        "steps" => (&mut lent.steps, 0),
        "outputs" => (&mut lent.outputs, 0),
        "steps read" => (&mut lent.read_steps, 2),
        "outputs read" => (&mut lent.read_outputs, 2),
        "scratch" => (&mut lent.scratch, 3),
        "values" => (&mut lent.values, 4),
        "figures" => (&mut lent.figures, 4),
        _ => unreachable!("{slice}"),
    };
    numbers.pop();
    calls_done
}

/// The slices that the first `calls` calls write are as in `done`, the others as in `before`.
fn written_by(calls: usize, before: &Lent, done: &Lent) -> Lent {
    let mut lent = before.clone();
    if calls > 0 {
        lent.steps = done.steps.clone();
        lent.outputs = done.outputs.clone();
    }
    if calls > 1 {
        lent.bytes = done.bytes.clone();
    }
    if calls > 2 {
        lent.read_steps = done.read_steps.clone();
        lent.read_outputs = done.read_outputs.clone();
    }
    if calls > 3 {
        lent.scratch = done.scratch.clone();
    }
    lent
}

/// Slices that are exactly long enough do; each of the eight one cell too short is 5, and that call and the later ones write nothing.
#[test]
fn short_slices() {
    let mut r = Random(52);
    let mut refused = 0;
    for round in 0..400 {
        let job = job(&mut r, 6, 6);
        if job.count() == 0 {
            continue;
        }
        let m = some_modulus(&mut r, round);
        let bases = bases(&mut r, job.p, m);
        let exact = lent(&mut r, &job, 0);
        let (answer, done) = same_path(&job, m, &bases, &exact);
        assert!(answer.is_ok(), "{job:?}");
        for slice in [
            "steps",
            "outputs",
            "bytes",
            "steps read",
            "outputs read",
            "scratch",
            "values",
            "figures",
        ] {
            let mut short = exact.clone();
            let calls_done = shorten(&mut short, slice);
            let (answer, after) = same_path(&job, m, &bases, &short);
            assert_eq!(answer, Err((5, 0)), "{slice} {job:?}");
            assert_eq!(after, written_by(calls_done, &short, &done), "{slice}");
            refused += 1;
        }
    }
    assert!(refused > 2000, "only {refused} slices were too short");
}

/// A modulus or bases that the run refuses: the four calls before it are done, values and figures untouched.
#[test]
fn refused_runs() {
    let mut r = Random(53);
    for _ in 0..300 {
        let job = job(&mut r, 6, 6);
        let spare = r.below(2);
        let before = lent(&mut r, &job, spare);
        let fit = vec![1; job.p];
        let (answer, done) = same_path(&job, 7, &fit, &before);
        assert!(answer.is_ok(), "{job:?}");
        let at_modulus = [&fit[1..], &[7]].concat();
        let one_more = [&fit[..], &[1]].concat();
        for (m, bases, number) in [
            (0, &fit[..], 15),
            (0, &at_modulus, 15),
            (1, &fit, 16),
            (7, &at_modulus, 16),
            (7, &fit[1..], 16),
            (7, &one_more, 16),
        ] {
            let (answer, after) = same_path(&job, m, bases, &before);
            assert_eq!(answer, Err((number, 0)), "{job:?} {m} {bases:?}");
            assert_eq!(after, written_by(4, &before, &done), "{job:?}");
        }
    }
}

/// What compile refuses is told by the path before anything is written.
#[test]
fn refused_sheets() {
    let mut r = Random(54);
    let good = Job::new(2, 1, &[3, 2], 1, 1);
    let before = lent(&mut r, &good, 3);
    for (job, number) in [
        (Job::new(0, 1, &[], 1, 1), 1),
        (Job::new(17, 1, &[0; 17], 2, 1), 1),
        (Job::new(2, 65, &[0; 130], 2, 1), 1),
        (Job::new(2, 1, &[3, 2, 1], 1, 1), 2),
        (Job::new(11, 1, &[0; 11], 1, 1), 3),
        (Job::new(2, 1, &[3, 2], 4, 1), 3),
        (job_counting(MOST_STEPS + 1, 2, 8), 4),
        (Job::new(2, 1, &[3, 255], 1, 1), 5),
    ] {
        // the run's own refusal comes later
        let (answer, after) = same_path(&job, 0, &[], &before);
        assert_eq!(answer, Err((number, 0)), "{job:?}");
        assert_eq!(after, before);
    }
    let (answer, _) = same_path(&good, 1000, &[3, 5], &before);
    assert_eq!(answer, Ok(vec![3; 3]));
}

/// Sheets of up to two columns and two payslips with amounts up to 7, by every method and parameter, run over bases that tell amounts apart.
#[test]
fn small_sheets() {
    let mut r = Random(55);
    let moduli = [1_000_000_007, u32::MAX, 10_000];
    let mut round = 0;
    for (p, q) in [(1, 1), (1, 2), (2, 1), (2, 2)] {
        // all sheets but those of two by two, of which every fifth is taken
        let stride = if p * q == 4 { 5 } else { 1 };
        for number in (0..1u32 << (3 * p * q)).step_by(stride) {
            let amounts: Vec<u32> = (0..p * q).map(|i| number >> (3 * i) & 7).collect();
            for (method, k) in methods(p) {
                let job = Job::new(p, q, &amounts, method, k);
                walk(&mut r, &job, moduli[round % 3], &[2, 3][..p], round % 2);
                round += 1;
            }
        }
    }
    assert_eq!(round, (8 + 64 + 64 + 820) * 21);
}

/// The longest chains by Yao and by partition.
#[test]
fn longest_chains() {
    let mut r = Random(56);
    for (method, k) in [(2, 1), (2, 3), (2, 8), (3, 1), (3, 8)] {
        let job = job_counting(MOST_STEPS, method, k);
        for m in [u32::MAX, 4_294_967_291] {
            let bases = bases(&mut r, MOST_COLUMNS, m);
            let after = walk(&mut r, &job, m, &bases, 1);
            assert_eq!(after.bytes.len(), reference::LONGEST_FILE + 1);
        }
    }
}

/// Trials A to F, I and J, figures as the document gives them or by the power loop.
#[test]
fn trials() {
    let mut r = Random(57);
    let a = Job::new(2, 1, &[3, 2], 1, 1);
    let after = walk(&mut r, &a, 1000, &[3, 5], 0);
    assert_eq!(after.bytes, [0x11, 0x00, 0x00, 0x34, 0x5b, 0x86, 0x80]);
    assert_eq!(after.read_steps, [2, 1, 3, 3, 4, 1]);
    assert_eq!((after.read_outputs, after.scratch), (vec![5], vec![0; 6]));
    assert_eq!(after.values, [1, 3, 5, 15, 225, 675]);
    assert_eq!(after.figures, [675]);
    for (method, k) in [(2, 1), (3, 2)] {
        let job = Job::new(2, 1, &[3, 2], method, k);
        assert_eq!(walk(&mut r, &job, 1000, &[3, 5], 0).figures, [675]);
    }
    for method in [1, 2] {
        let job = Job::new(1, 1, &[11], method, 2);
        assert_eq!(walk(&mut r, &job, 10_000, &[2], 0).figures, [2048]);
    }
    let f = Job::new(1, 1, &[0], 1, 1);
    assert_eq!(walk(&mut r, &f, 1000, &[0], 0).figures, [1]);
    assert_eq!(walk(&mut r, &f, 1, &[0], 0).figures, [0]);
    let i = Job::new(1, 1, &[u32::MAX], 1, 1);
    assert_eq!(i.count(), 62);
    walk(&mut r, &i, u32::MAX, &[3], 0);
    let j = [3, 0, 2, 1, 2, 0, 0, 0, 2, 3, 2, 1];
    for (method, k) in methods(3) {
        let job = Job::new(3, 4, &j, method, k);
        let after = walk(&mut r, &job, 10_000, &[3, 5, 7], 0);
        assert_eq!(after.figures, [1323, 75, 49, 4725]);
    }
    let straus = Job::new(5, 2, &[1, 2, 3, 4, 5, 0, 9, 0, 70, 1], 1, 2);
    walk(&mut r, &straus, 65_537, &[2, 3, 5, 7, 11], 0);
}

/// Trials G and H: chains that no method makes here, written, read, checked and run by the single calls.
#[test]
fn trials_of_given_chains() {
    let along = |steps: &[u32], output: u32, amount: u32, m: u32| -> Result<u32, (u32, u64)> {
        let n = steps.len() / 2;
        let counts = reference::counts(&reference::pairs(steps));
        let mut bytes = vec![9; 200];
        let length = ffi::write(1, steps, &[output], &mut bytes)?[0] as usize;
        let (mut read_steps, mut read_outputs) = (vec![9; 2 * n], [9]);
        let read = ffi::read(&bytes[..length], &mut read_steps, &mut read_outputs)?;
        assert_eq!(read, [&[1, 1], &counts[..]].concat());
        assert_eq!((&read_steps[..], read_outputs), (steps, [output]));
        let (mut scratch, mut values) = (vec![9; n + 2], vec![9; n + 2]);
        let passed = ffi::verify(1, &read_steps, &read_outputs, &[amount], &mut scratch)?;
        assert_eq!(passed, counts);
        let mut figures = [9];
        let made = ffi::run(
            1,
            &read_steps,
            &read_outputs,
            m,
            &[3],
            &mut values,
            &mut figures,
        )?;
        assert_eq!(made, counts);
        Ok(figures[0])
    };
    let g = [1, 1, 2, 1, 3, 2, 4, 2, 5, 5, 6, 6, 7, 7, 8, 5];
    let m = 4_294_967_291;
    assert_eq!(along(&g, 9, 63, m), Ok(reference::figure(m, &[3], &[63])));
    assert_eq!(along(&g, 9, 62, m), Err((14, 1)));
    let squarings: Vec<u32> = (1..=32).flat_map(|v| [v, v]).collect();
    let most = 1 << 31;
    assert_eq!(
        along(&squarings[..62], 32, most, m),
        Ok(reference::figure(m, &[3], &[most]))
    );
    assert_eq!(along(&squarings, 32, most, m), Err((13, 32)));
}
