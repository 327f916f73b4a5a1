//! A month's sheet, 9 pay elements by 48 payslips, amounts of pence up to 20 bits: what the chain spares a receiver, and what compile, the
//! ceiling and the whole path cost beside plain Rust.
use crate::{medians, methods, plain, report};
use spoutbasket::{LONGEST_FILE, MOST_PAYSLIPS, MOST_STEPS, MOST_VALUES};
use spoutbasket_tests::ffi;
use spoutbasket_tests::random::Random;
use spoutbasket_tests::reference::{Job, Lent};
use std::hint::black_box;

const P: usize = 9;
const Q: usize = 48;

/// The amounts of a month.
fn sheet(r: &mut Random) -> Vec<u32> {
    (0..P * Q).map(|_| r.below(1 << 20) as u32).collect()
}

/// The job with the fewest steps among those of a method, or of all.
fn fewest(amounts: &[u32], of: impl Fn(usize) -> bool) -> Job {
    spoutbasket_tests::compiler::methods(P)
        .into_iter()
        .filter(|&(method, _)| of(method))
        .map(|(method, k)| Job::new(P, Q, amounts, method, k))
        .min_by_key(Job::count)
        .unwrap()
}

/// A product modulo m by the machine's division.
fn by_division(x: u64, y: u64, m: u64, _inverse: u64) -> u64 {
    x * y % m
}

/// A product of two numbers below 2^32 modulo m by the inverse of m, as the library has it.
fn by_inverse(x: u64, y: u64, m: u64, inverse: u64) -> u64 {
    let product = x * y;
    let left = product - ((u128::from(product) * u128::from(inverse)) >> 64) as u64 * m;
    let less = left.wrapping_sub(m);
    if less >> 63 == 0 {
        less
    } else {
        left
    }
}

/// The figures the plain way, one modular power for each amount, and the multiplications made.
#[inline(always)]
fn powers(
    times: impl Fn(u64, u64, u64, u64) -> u64,
    m: u32,
    bases: &[u32],
    amounts: &[u32],
    figures: &mut [u32],
) -> usize {
    let m = m as u64;
    let inverse = u64::MAX / m;
    let mut made = 0;
    for (slip, figure) in amounts.chunks_exact(P).zip(figures) {
        let mut product = None;
        for (&base, &amount) in bases.iter().zip(slip) {
            if amount == 0 {
                continue;
            }
            let mut power = base as u64;
            for bit in (0..amount.ilog2()).rev() {
                power = times(power, power, m, inverse);
                made += 1;
                if amount >> bit & 1 == 1 {
                    power = times(power, base as u64, m, inverse);
                    made += 1;
                }
            }
            product = match product {
                None => Some(power),
                Some(product) => {
                    made += 1;
                    Some(times(product, power, m, inverse))
                }
            };
        }
        *figure = product.unwrap_or(1 % m) as u32;
    }
    made
}

/// Slices long enough for every chain.
fn lent() -> Lent {
    Lent {
        steps: vec![0; 2 * MOST_STEPS],
        outputs: vec![0; MOST_PAYSLIPS],
        bytes: vec![0; LONGEST_FILE],
        read_steps: vec![0; 2 * MOST_STEPS],
        read_outputs: vec![0; MOST_PAYSLIPS],
        scratch: vec![0; MOST_VALUES],
        values: vec![0; MOST_VALUES],
        figures: vec![0; MOST_PAYSLIPS],
    }
}

fn library_compile(job: &Job, lent: &mut Lent) -> Vec<u64> {
    let Job {
        p,
        q,
        amounts,
        method,
        parameter,
    } = job;
    let (steps, outputs) = (&mut lent.steps, &mut lent.outputs);
    ffi::compile(*p, *q, amounts, *method, *parameter, steps, outputs).unwrap()
}

fn plain_compile(job: &Job, lent: &mut Lent) -> [u64; 3] {
    methods::compile(
        job.p,
        job.q,
        &job.amounts,
        job.method,
        job.parameter,
        &mut lent.steps,
        &mut lent.outputs,
    )
    .unwrap()
}

/// What is made of which sheet: its sizes, the method and the parameter.
fn of(job: &Job) -> String {
    let name = ["Straus", "Yao", "partition"][job.method - 1];
    format!("of {} by {}, {name} {}", job.p, job.q, job.parameter)
}

/// The count and the ceiling beside plain Rust.
fn ceiling(job: &Job) {
    let Job {
        p,
        q,
        method,
        parameter,
        ..
    } = *job;
    let ours = |amounts| ffi::ceiling(p, q, amounts, method, parameter).unwrap();
    let theirs = |amounts| methods::quote(p, q, amounts, method, parameter).unwrap();
    report(
        &format!("ceiling {}", of(job)),
        medians(
            10_001,
            || assert!(ours(black_box(&job.amounts))[0] > 0),
            || assert!(theirs(black_box(&job.amounts)).0 > 0),
        ),
    );
    let (count, most) = theirs(&job.amounts);
    assert_eq!(ours(&job.amounts), [count as u64, most as u64]);
}

/// Compile beside plain Rust, sheet after sheet in turn, and that both give the same chain. With one sheet again and again the processor knows
/// its jumps by heart.
fn compile(jobs: &[Job], ours: &mut Lent, theirs: &mut Lent) {
    let made = match jobs {
        [job] => format!("{} steps", job.count()),
        _ => format!("{} sheets", jobs.len()),
    };
    let (mut next, mut other) = (jobs.iter().cycle(), jobs.iter().cycle());
    report(
        &format!("compile {}, {made}", of(&jobs[0])),
        medians(
            513,
            || library_compile(black_box(next.next().unwrap()), ours),
            || plain_compile(black_box(other.next().unwrap()), theirs),
        ),
    );
    assert_eq!(
        (&ours.steps, &ours.outputs),
        (&theirs.steps, &theirs.outputs)
    );
}

/// The five calls in plain Rust: the steps of compile and of read, and the multiplications made.
fn plain_path(job: &Job, m: u32, bases: &[u32], lent: &mut Lent) -> Result<[u64; 3], (u32, usize)> {
    let [compiled, ..] = plain_compile(job, lent);
    let length = plain::write(
        job.p,
        &lent.steps[..2 * compiled as usize],
        &lent.outputs[..job.q],
        &mut lent.bytes,
    )?;
    let [p, q, n, ..] = plain::read(
        &lent.bytes[..length],
        &mut lent.read_steps,
        &mut lent.read_outputs,
    )?;
    let p = p as usize;
    let steps = &lent.read_steps[..2 * n as usize];
    let outputs = &lent.read_outputs[..q as usize];
    plain::verify(p, steps, outputs, &job.amounts, &mut lent.scratch)?;
    let (values, figures) = (&mut lent.values, &mut lent.figures);
    let [made, ..] = plain::run(p, steps, outputs, m, bases, values, figures)?;
    Ok([compiled, n, made])
}

pub fn measure() {
    let mut r = Random(13);
    let amounts = sheet(&mut r);
    // the compiler must not know the modulus, for which it would do without divisions
    let m = black_box(4_294_967_291);
    let bases: Vec<u32> = (0..P).map(|_| r.below(m as usize) as u32).collect();
    let (mut ours, mut theirs, mut inverted) = (lent(), lent(), lent());

    let best = fewest(&amounts, |_| true);
    let n = library_compile(&best, &mut ours)[0] as usize;
    let (steps, outputs) = (ours.steps[..2 * n].to_vec(), ours.outputs[..Q].to_vec());
    let plain_way = powers(by_division, m, &bases, &amounts, &mut theirs.figures);
    println!(
        "a sheet of {P} by {Q}: method {} with {}, {n} multiplications; one power for each amount, {plain_way}",
        best.method, best.parameter
    );
    let mut run = || {
        let (values, figures) = (&mut ours.values, &mut ours.figures);
        let run = ffi::run(P, &steps, &outputs, m, black_box(&bases), values, figures);
        assert!(run.is_ok())
    };
    let by_powers = medians(501, &mut run, || {
        powers(
            by_division,
            m,
            black_box(&bases),
            &amounts,
            &mut theirs.figures,
        );
    });
    report("run of that chain, plain Rust: powers", by_powers);
    let by_inverted = medians(501, &mut run, || {
        powers(
            by_inverse,
            m,
            black_box(&bases),
            &amounts,
            &mut inverted.figures,
        );
    });
    report("the same, powers by the inverse too", by_inverted);
    assert_eq!(ours.figures[..Q], theirs.figures[..Q]);
    assert_eq!(ours.figures[..Q], inverted.figures[..Q]);

    for method in 1..=3 {
        let job = fewest(&amounts, |m| m == method);
        let k = job.parameter;
        let sheets: Vec<Job> = (0..128)
            .map(|_| Job::new(P, Q, &sheet(&mut r), method, k))
            .collect();
        ceiling(&job);
        compile(&[job], &mut ours, &mut theirs);
        compile(&sheets, &mut ours, &mut theirs);
    }
    // wider digits, of which Straus's table allows fewer columns, and the largest groups
    for (p, method, k) in [(5, 1, 2), (3, 1, 3), (2, 1, 5), (P, 3, 8)] {
        let job = Job::new(p, Q, &amounts[..p * Q], method, k);
        compile(&[job], &mut ours, &mut theirs);
    }

    report(
        "the whole path of the best chain",
        medians(
            501,
            || ffi::path(black_box(&best), m, &bases, &mut ours).unwrap(),
            || plain_path(black_box(&best), m, &bases, &mut theirs).unwrap(),
        ),
    );
    assert_eq!(ours, theirs);
}
