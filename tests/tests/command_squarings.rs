//! The squarings and products that the command tells, in words and as JSON, by each command that makes, reads, checks or runs a chain.
use spoutbasket_tests::command::{count, counts, counts_json, sheet_text, spoutbasket, Folder};
use spoutbasket_tests::compiler::jobs;
use spoutbasket_tests::random::{jobs_in_round, legal_chain, Chain, Random};
use spoutbasket_tests::reference::{self, Job, LONGEST_FILE, MOST_STEPS};

/// What the command says on standard output when it is done.
fn said(words: &[&str]) -> String {
    spoutbasket(words, b"").done()
}

/// Keys under which every figure is 0.
fn keys(folder: &Folder, p: usize) -> String {
    folder.file("keys", format!("1{}\n", " 0".repeat(p)))
}

/// The lines of as many figures, and of the counts.
fn lines(q: usize, made: &[u64]) -> String {
    "0\n".repeat(q) + &counts("multiplication", made) + "\n"
}

/// The same as fields of an object.
fn fields(q: usize, made: &[u64]) -> String {
    let figures = vec!["0"; q].join(",");
    let made = counts_json("multiplications", made);
    format!("\"figures\":[{figures}],{made}")
}

/// What is said of a chain by check, list and run.
fn told_of_chain(folder: &Folder, c: &Chain) {
    let (p, q, made) = (c.p, c.outputs.len(), c.counts());
    let mut file = vec![0; LONGEST_FILE];
    let length = reference::write(p, &c.steps, &c.outputs, &mut file).unwrap();
    file.truncate(length[0] as usize);
    let chain = folder.file("chain", &file);
    let sheet = folder.file("sheet", sheet_text(p, &c.amounts().unwrap(), false));
    let steps = counts("step", &made);
    let sizes = counts_json("steps", &made);
    let sizes = format!("\"columns\":{p},\"payslips\":{q},{sizes}");

    let passed = [count(p, "column"), count(q, "payslip"), steps.clone()].join(", ");
    let checked = said(&["check", &sheet, &chain]);
    assert_eq!(checked, format!("passed: {passed}\n"));
    let object = said(&["check", "--json", &sheet, &chain]);
    assert_eq!(object, format!("{{\"passed\":true,{sizes}}}\n"));

    // the listing itself has the steps alone
    let listed = spoutbasket(&["list", "-v", &chain], b"");
    assert!(listed.line().ends_with(&format!("; {steps}")), "{listed:?}");
    let listing = reference::listing(&file);
    assert_eq!(String::from_utf8(listed.said).unwrap(), listing);
    let object = said(&["list", "--json", &chain]);
    let start = format!("{{{sizes},\"amounts\":[[");
    assert!(object.starts_with(&start), "{object}");

    let keys = keys(folder, p);
    assert_eq!(said(&["run", "--keys", &keys, &chain]), lines(q, &made));
    let object = said(&["run", "--json", "--keys", &keys, &chain]);
    assert_eq!(object, format!("{{{}}}\n", fields(q, &made)));
}

/// What is said of a job's chain by compile and figures, with its method named or without.
fn told_of_sheet(folder: &Folder, job: &Job, named: bool) {
    let (q, made, name) = (job.q, job.counts(), job.method_name());
    let sheet = folder.file("sheet", sheet_text(job.p, &job.amounts, false));
    let method = match named {
        true => vec!["--method", &name],
        false => vec![],
    };
    let target = folder.path("target");
    let compile = ["compile", "-v", "-o", &target, &sheet];
    let compiled = spoutbasket(&[&compile[..], &method].concat(), b"");
    let steps = counts("step", &made);
    assert_eq!(compiled.line(), format!("{sheet}: {name}, {steps}"));

    let keys = keys(folder, job.p);
    let figures = ["figures", "--keys", &keys, &sheet];
    let figures = [&figures[..], &method].concat();
    assert_eq!(said(&figures), lines(q, &made));
    let object = said(&[&figures[..], &["--json"]].concat());
    let fields = fields(q, &made);
    assert_eq!(object, format!("{{\"method\":\"{name}\",{fields}}}\n"));
}

/// None, one and more of either kind, and equal values under different numbers.
#[test]
fn words_of_chains() {
    let folder = Folder::new("squarings-words");
    for (p, steps, words) in [
        (1, &[][..], "0 steps: 0 squarings, 0 products"),
        (1, &[1, 1], "1 step: 1 squaring, 0 products"),
        (2, &[2, 1], "1 step: 0 squarings, 1 product"),
        (2, &[2, 1, 3, 3, 4, 1], "3 steps: 1 squaring, 2 products"),
        (1, &[1, 1, 1, 1, 3, 2], "3 steps: 2 squarings, 1 product"),
    ] {
        let c = Chain {
            p,
            steps: steps.to_vec(),
            outputs: vec![(p + steps.len() / 2) as u32],
        };
        assert_eq!(counts("step", &c.counts()), words);
        told_of_chain(&folder, &c);
    }
}

#[test]
fn random_chains() {
    let mut r = Random(111);
    let folder = Folder::new("squarings-chains");
    let mut told = 0;
    for _ in 0..40 {
        let (p, q, n) = (r.within(1, 16), r.within(1, 12), r.below(60));
        let slow = !r.one_in(3);
        let c = legal_chain(&mut r, p, q, n, slow);
        if c.amounts().is_some() {
            told_of_chain(&folder, &c);
            told += 1;
        }
    }
    assert!(told > 20, "only {told} chains make a sheet");
}

/// By every method and parameter, and by none named.
#[test]
fn sheets() {
    let mut r = Random(112);
    let folder = Folder::new("squarings-sheets");
    let mut sheets = vec![jobs(2, 1, &[3, 2]), jobs(1, 1, &[0])];
    sheets.push(jobs_in_round(&mut r, 1));
    for jobs in sheets {
        let jobs = jobs.into_iter().filter(|job| job.count() <= MOST_STEPS);
        let jobs: Vec<Job> = jobs.collect();
        for job in &jobs {
            told_of_sheet(&folder, job, true);
        }
        let best = jobs.iter().min_by_key(|job| job.count()).unwrap();
        told_of_sheet(&folder, best, false);
    }
}

/// A refusal has no counts.
#[test]
fn none_of_a_refusal() {
    let folder = Folder::week("squarings-refused");
    let said = folder.script(
        "printf '3 4\\n3 0 2\\n1 2 0\\n0 1 2\\n3 2 1\\n' > other.txt
        spoutbasket check --json other.txt week.chain
        spoutbasket list --json week.txt
        echo 0 > no.keys; spoutbasket run --json --keys no.keys week.chain
        spoutbasket figures --json --keys no.keys week.txt",
    );
    let objects = String::from_utf8(said.said).unwrap();
    assert_eq!(objects.matches("\"refused\"").count(), 4);
    for text in [objects, said.told] {
        assert!(!text.contains("squaring") && !text.contains("product"));
    }
}
