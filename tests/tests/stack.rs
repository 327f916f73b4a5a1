//! Each function, on the largest input, on a thread with just the stack that the header says is enough. One that needed more would end the process.
use spoutbasket::{slices, FIELD_BYTES, LONGEST_FILE, LONGEST_LISTING, LONGEST_PHRASE};
use spoutbasket_tests::header;
use spoutbasket_tests::random::{job_counting, legal_chain, Chain, Random};
use spoutbasket_tests::reference::{words, Job};
use spoutbasket_tests::reference::{MOST_COLUMNS, MOST_PAYSLIPS, MOST_STEPS, MOST_VALUES};

const MODULUS: u32 = 4_294_967_291;
const AMOUNTS: usize = MOST_COLUMNS * MOST_PAYSLIPS;

/// Makes a call on a thread with a stack of as many bytes as a macro of the header says; it must be done.
fn on_stack(bytes: &str, call: impl FnOnce(&mut [u64; 8]) -> u32 + Send) -> [u64; 8] {
    let bytes = header::numbers()[bytes];
    std::thread::scope(|scope| {
        let thread = std::thread::Builder::new().stack_size(bytes);
        let done = thread.spawn_scoped(scope, || {
            let mut words = [7; 8];
            assert_eq!(call(&mut words), 0);
            words
        });
        done.unwrap().join().unwrap()
    })
}

/// A sheet with as many columns, payslips and steps as there may be, its chain and its file.
struct Largest {
    job: Job,
    steps: Vec<u32>,
    outputs: Vec<u32>,
    file: Vec<u8>,
    bases: Vec<u32>,
}

fn largest() -> Largest {
    let job = job_counting(MOST_STEPS, 3, 8);
    assert_eq!((job.p, job.q), (MOST_COLUMNS, MOST_PAYSLIPS));
    let (mut steps, mut outputs) = (vec![0; 2 * MOST_STEPS], vec![0; MOST_PAYSLIPS]);
    let answer = on_stack("STACK", |words| {
        compile(&job, &mut steps, &mut outputs, words)
    });
    assert_eq!(answer[0], MOST_STEPS as u64);
    let mut file = vec![0; LONGEST_FILE];
    on_stack("STACK", |words| {
        slices::extent(job.p, job.q, MOST_STEPS, words)
    });
    on_stack("STACK", |words| {
        slices::write(job.p, &steps, &outputs, &mut file, words)
    });
    let bases = (0..MOST_COLUMNS as u32)
        .map(|c| 1_000_003 * (c + 1))
        .collect();
    Largest {
        job,
        steps,
        outputs,
        file,
        bases,
    }
}

fn compile(job: &Job, steps: &mut [u32], outputs: &mut [u32], words: &mut [u64; 8]) -> u32 {
    let Job { p, q, amounts, .. } = job;
    slices::compile(
        *p,
        *q,
        amounts,
        job.method,
        job.parameter,
        steps,
        outputs,
        words,
    )
}

/// The other methods too: Straus's largest table, and Yao's longest chain.
#[test]
fn methods() {
    let straus = Job::new(10, MOST_PAYSLIPS, &[u32::MAX; 10 * MOST_PAYSLIPS], 1, 1);
    let yao = job_counting(MOST_STEPS, 2, 8);
    for job in [straus, yao] {
        let (mut steps, mut outputs) = (vec![0; 2 * MOST_STEPS], vec![0; MOST_PAYSLIPS]);
        on_stack("STACK", |words| {
            compile(&job, &mut steps, &mut outputs, words)
        });
    }
}

/// The ceiling of the largest amounts, by each method on as many columns as it takes.
#[test]
fn ceilings() {
    for (p, method, k) in [(10, 1, 1), (MOST_COLUMNS, 2, 8), (MOST_COLUMNS, 3, 1)] {
        let amounts = vec![u32::MAX; p * MOST_PAYSLIPS];
        let job = Job::new(p, MOST_PAYSLIPS, &amounts, method, k);
        let answer = on_stack("STACK", |words| {
            slices::ceiling(p, MOST_PAYSLIPS, &amounts, method, k, words)
        });
        let wanted = [job.count() as u64, job.ceiling() as u64];
        assert_eq!(answer, words(&wanted));
    }
}

#[test]
fn chains() {
    let all = largest();
    let (mut steps, mut outputs) = (vec![0; 2 * MOST_STEPS], vec![0; MOST_PAYSLIPS]);
    let (mut scratch, mut values) = (vec![0; MOST_VALUES], vec![0; MOST_VALUES]);
    let mut figures = vec![0; MOST_PAYSLIPS];
    let Job { p, q, amounts, .. } = &all.job;
    on_stack("STACK", |words| {
        slices::read(&all.file, &mut steps, &mut outputs, words)
    });
    assert_eq!((&steps, &outputs), (&all.steps, &all.outputs));
    on_stack("STACK", |words| {
        slices::verify(*p, &steps, &outputs, amounts, &mut scratch, words)
    });
    on_stack("STACK", |words| {
        let bases = &all.bases;
        slices::run(
            *p,
            &steps,
            &outputs,
            MODULUS,
            bases,
            &mut values,
            &mut figures,
            words,
        )
    });
    let (mut other_steps, mut other_outputs) = (steps.clone(), outputs.clone());
    on_stack("STACK", |words| {
        let (a, b) = (&all.file, &all.file);
        slices::choose(
            *p,
            *q,
            amounts,
            a,
            b,
            &mut steps,
            &mut outputs,
            &mut scratch,
            words,
        )
    });
    on_stack("STACK", |words| {
        slices::path(
            *p,
            *q,
            amounts,
            all.job.method,
            all.job.parameter,
            MODULUS,
            &all.bases,
            &mut steps,
            &mut outputs,
            &mut vec![0; LONGEST_FILE],
            &mut other_steps,
            &mut other_outputs,
            &mut scratch,
            &mut values,
            &mut figures,
            words,
        )
    });
}

/// The largest pool, of two parts that are equal in size, and of two of which one has all the steps.
#[test]
fn pools() {
    let mut r = Random(56);
    for n in [MOST_STEPS / 2, MOST_STEPS] {
        let q = MOST_PAYSLIPS / 2;
        let a = legal_chain(&mut r, MOST_COLUMNS, q, n, true);
        let b = legal_chain(&mut r, MOST_COLUMNS, q, MOST_STEPS - n, true);
        let (mut steps, mut outputs) = (vec![0; 2 * MOST_STEPS], vec![0; MOST_PAYSLIPS]);
        let answer = on_stack("STACK", |words| {
            slices::pool(
                a.p,
                &a.steps,
                &a.outputs,
                b.p,
                &b.steps,
                &b.outputs,
                &mut steps,
                &mut outputs,
                words,
            )
        });
        let pool = Chain {
            p: a.p,
            steps,
            outputs,
        };
        assert_eq!(answer, words(&pool.counts()));
    }
}

/// The largest sheet, of the largest amounts, as packed fields and back.
#[test]
fn packed_fields() {
    let (p, q) = (MOST_COLUMNS, MOST_PAYSLIPS);
    let (amounts, mut read) = (vec![999_999_999; AMOUNTS], vec![0; AMOUNTS]);
    let mut fields = vec![0; FIELD_BYTES * AMOUNTS];
    let answer = on_stack("STACK", |words| {
        slices::pack(p, q, &amounts, &mut fields, words)
    });
    assert_eq!(answer, words(&[AMOUNTS as u64]));
    let answer = on_stack("STACK", |words| {
        slices::unpack(p, q, &fields, &mut read, words)
    });
    assert_eq!((answer, read), (words(&[AMOUNTS as u64]), amounts));
}

#[test]
fn pairs() {
    let all = largest();
    let steps: Vec<[u32; 2]> = all.steps.chunks_exact(2).map(|s| [s[0], s[1]]).collect();
    let (mut values, mut figures) = (vec![0; MOST_VALUES], vec![0; MOST_PAYSLIPS]);
    let Job { p, amounts, .. } = &all.job;
    on_stack("STACK", |words| {
        slices::verify_pairs(*p, &steps, &all.outputs, amounts, &mut values, words)
    });
    on_stack("STACK", |words| {
        let (outputs, bases) = (&all.outputs, &all.bases);
        slices::run_pairs(
            *p,
            &steps,
            outputs,
            MODULUS,
            bases,
            &mut values,
            &mut figures,
            words,
        )
    });
}

#[test]
fn listing() {
    let all = largest();
    let mut text = Box::new([0; LONGEST_LISTING]);
    let answer = on_stack("STACK_LIST", |words| {
        slices::list(&all.file, &mut text, words)
    });
    assert!(text[..answer[0] as usize].starts_with(b"16 64 16000\n"));
}

#[test]
fn texts() {
    let table = format!("{}\n", "4294967295;".repeat(16).trim_end_matches(';')).repeat(64);
    let mut amounts = vec![0; AMOUNTS];
    let answer = on_stack("STACK", |words| {
        slices::table(table.as_bytes(), &mut amounts, words)
    });
    assert_eq!(
        (answer, &amounts),
        (words(&[16, 64]), &vec![u32::MAX; AMOUNTS])
    );
    let numbers = table.replace(';', " ") + &" ".repeat(1 << 20) + "\n";
    let answer = on_stack("STACK", |words| {
        slices::numbers(numbers.as_bytes(), &mut amounts, words)
    });
    assert_eq!(answer, words(&[1024]));
    let mut phrase = [0; LONGEST_PHRASE];
    for number in 0..256 {
        on_stack("STACK", |words| slices::phrase(number, &mut phrase, words));
    }
}
