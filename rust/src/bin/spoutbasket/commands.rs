//! What each command does.
use crate::args::{Form, Given};
use crate::documents::{self, refused_both, refused_file, refused_keys, refused_sheet};
use crate::input::Source;
use crate::json;
use crate::kinds::kinds;
use crate::messages::{counted, say, Failure, Refused};
use crate::options::{
    chain_target, keys_source, method, not_to_terminal, one_standard, sources, target,
};
use crate::output;
use crate::packed::refused_field;
use crate::wanted::Wanted;
use spoutbasket::{choose as choose_file, Chain, Counts, Method, Quote, Reason, Refusal, Sheet};
use std::ffi::OsString;

/// A command: what it takes and what it does.
pub struct Command {
    pub form: Form,
    act: fn(&Form, &Given) -> Result<(), Failure>,
}

pub const ALL: [Command; 10] = [
    Command {
        form: Form {
            name: "compile",
            flags: &["--best", "--table", "--verbose"],
            valued: &["--method", "--packed", "-o"],
            files: (0, 1),
        },
        act: compile,
    },
    Command {
        form: Form {
            name: "ceiling",
            flags: &["--table", "--json"],
            valued: &["--method", "--packed"],
            files: (0, 1),
        },
        act: ceiling,
    },
    Command {
        form: Form {
            name: "check",
            flags: &["--table", "--json"],
            valued: &["--packed"],
            files: (2, 3),
        },
        act: check,
    },
    Command {
        form: Form {
            name: "choose",
            flags: &["--table", "--verbose"],
            valued: &["--packed", "-o"],
            files: (3, 3),
        },
        act: choose,
    },
    Command {
        form: Form {
            name: "pool",
            flags: &["--verbose"],
            valued: &["-o"],
            files: (2, 2),
        },
        act: pool,
    },
    Command {
        form: Form {
            name: "list",
            flags: &["--json", "--verbose"],
            valued: &[],
            files: (0, 1),
        },
        act: list,
    },
    Command {
        form: Form {
            name: "run",
            flags: &["--json"],
            valued: &["--keys"],
            files: (0, 1),
        },
        act: run,
    },
    Command {
        form: Form {
            name: "figures",
            flags: &["--table", "--json"],
            valued: &["--keys", "--method", "--packed"],
            files: (0, 1),
        },
        act: figures,
    },
    Command {
        form: Form {
            name: "unpack",
            flags: &["--verbose"],
            valued: &["--packed", "-o"],
            files: (0, 1),
        },
        act: unpack,
    },
    Command {
        form: Form {
            name: "pack",
            flags: &["--table", "--verbose"],
            valued: &["--packed", "-o"],
            files: (0, 1),
        },
        act: pack,
    },
];

impl Command {
    /// Runs the command on the words after its name. With `--json` a refusal is an object on standard output too, so that there is always one to parse.
    pub fn run(&self, words: Vec<OsString>) -> Result<(), Failure> {
        let given = self.form.sort(words)?;
        let done = (self.act)(&self.form, &given);
        if let Err(Failure::Refused(refused)) = &done {
            if given.has("--json") {
                output::print(format!("{}\n", refused.json()).as_bytes())?;
            }
        }
        done
    }
}

fn compile(form: &Form, given: &Given) -> Result<(), Failure> {
    let method = method(form, given)?;
    if method.is_some() && given.has("--best") {
        return Err(form.wrong("--best and --method are two methods"));
    }
    let [kind] = kinds(form, given)?;
    let source = Source::new(given.file(0));
    let target = chain_target(form, given, &[&source], "the sheet")?;
    let sheet = documents::sheet(&source, kind)?;
    let refused = |refusal| refused_sheet(&source, method, refusal);
    let (method, chain, counts) = compiled(&sheet, method).map_err(refused)?;
    target.write(&chain.to_file().map_err(refused)?)?;
    if given.has("--verbose") {
        let steps = counts_in_words("step", counts);
        say(&format!("{}: {method}, {steps}", source.name()));
    }
    Ok(())
}

/// A sheet's chain by the method named, or else the shortest, with its method and its counts.
fn compiled(sheet: &Sheet, named: Option<Method>) -> Result<(Method, Chain, Counts), Refusal> {
    let Some(method) = named else {
        return sheet.best_counted();
    };
    let (chain, counts) = sheet.compile_counted(method)?;
    Ok((method, chain, counts))
}

fn ceiling(form: &Form, given: &Given) -> Result<(), Failure> {
    let method = method(form, given)?;
    let [kind] = kinds(form, given)?;
    let source = Source::new(given.file(0));
    let sheet = documents::sheet(&source, kind)?;
    let quoted = |method| sheet.ceiling(method).map(|quote| (method, quote));
    let quotes: Result<Vec<(Method, Quote)>, Refusal> = match method {
        Some(named) => quoted(named).map(|quote| vec![quote]),
        // parameters that do not go with as many columns are left out
        None => Method::all()
            .map(quoted)
            .filter(|quote| !matches!(quote, Err(refusal) if refusal.reason == Reason::Method))
            .collect(),
    };
    let quotes = quotes.map_err(|refusal| refused_sheet(&source, method, refusal))?;
    if given.has("--json") {
        let mut fields = shape([sheet.columns(), sheet.payslips()]);
        let methods = quotes.iter().map(|(method, quote)| {
            json::object(&[
                ("method", json::string(&method.to_string())),
                ("count", quote.count.to_string()),
                ("ceiling", quote.ceiling.to_string()),
            ])
        });
        fields.push(("methods", json::array(methods)));
        return print(json::object(&fields));
    }
    let lines: Vec<String> = quotes
        .iter()
        .map(|(method, quote)| format!("{method} {} {}", quote.count, quote.ceiling))
        .collect();
    print(lines.join("\n"))
}

fn check(form: &Form, given: &Given) -> Result<(), Failure> {
    let (wanted, chain) = match given.file(2) {
        None => {
            let [sheet, chain] = sources(form, given)?;
            let [kind] = kinds(form, given)?;
            (Wanted::one(&sheet, kind)?, chain)
        }
        Some(_) => {
            let [first, second, chain] = sources(form, given)?;
            (Wanted::two(&first, &second, kinds(form, given)?)?, chain)
        }
    };
    let (chain, counts) = wanted.made_by(&chain, &chain.chain()?)?;
    if given.has("--json") {
        let mut fields = vec![("passed", "true".to_string())];
        fields.extend(shape(sizes(&chain)));
        fields.extend(counts_fields("steps", counts));
        return print(json::object(&fields));
    }
    // the exit status says it too
    output::tell(format!("passed: {}\n", chain_in_words(&chain, counts)).as_bytes())
}

fn choose(form: &Form, given: &Given) -> Result<(), Failure> {
    let [sheet, first, second] = sources(form, given)?;
    let [kind] = kinds(form, given)?;
    let target = chain_target(form, given, &[&sheet], "the sheet")?;
    let wanted = Wanted::one(&sheet, kind)?;
    let (a, b) = (first.chain()?, second.chain()?);
    let taken =
        choose_file(&wanted.sheet, &a, &b).map_err(|refusal| wanted.unlike(&first, &a, refusal))?;
    target.write(taken)?;
    if given.has("--verbose") {
        let is_first = std::ptr::eq(taken, &a[..]);
        let name = if is_first { first } else { second }.name();
        say(&format!("{name}: taken"));
    }
    Ok(())
}

fn pool(form: &Form, given: &Given) -> Result<(), Failure> {
    let [first, second] = sources(form, given)?;
    let target = chain_target(form, given, &[&first, &second], "a part")?;
    let (a, b) = (first.chain()?, second.chain()?);
    let (a, _) = documents::chain(&first, &a)?;
    let (b, _) = documents::chain(&second, &b)?;
    let refused = |refusal| refused_both([&first, &second], [&a, &b].map(with_steps), refusal);
    let (pool, counts) = a.pool_counted(&b).map_err(refused)?;
    target.write(&pool.to_file().map_err(refused)?)?;
    if given.has("--verbose") {
        let names = documents::both([&first, &second]);
        say(&format!("{names}: {}", chain_in_words(&pool, counts)));
    }
    Ok(())
}

fn list(_: &Form, given: &Given) -> Result<(), Failure> {
    let source = Source::new(given.file(0));
    let bytes = source.chain()?;
    let (chain, counts) = documents::chain(&source, &bytes)?;
    let listing = documents::listing(&source, &bytes, &chain)?;
    let extent = chain.extent();
    let extent = extent.map_err(|refusal| refused_file(&source, &bytes, refusal))?;
    if given.has("--json") {
        let mut fields = shape(sizes(&chain));
        fields.extend(counts_fields("steps", counts));
        fields.push(("amounts", json::array(listing.rows().map(json::numbers))));
        print(json::object(&fields))?;
    } else {
        output::print(listing.text().as_bytes())?;
    }
    if given.has("--verbose") {
        let (name, last, width) = (source.name(), chain.columns + counts.steps, extent.width);
        let long = counted(extent.bytes, "byte");
        let steps = counts_in_words("step", counts);
        say(&format!(
            "{name}: p + n is {last}, W is {width}, {long}; {steps}"
        ));
    }
    Ok(())
}

fn run(form: &Form, given: &Given) -> Result<(), Failure> {
    let (keys, source) = (keys_source(form, given)?, Source::new(given.file(0)));
    one_standard(form, &[&keys, &source])?;
    let secret = documents::keys(&keys)?;
    let bytes = source.chain()?;
    let (chain, _) = documents::chain(&source, &bytes)?;
    let run = chain.run(secret.modulus, &secret.bases);
    let run = run.map_err(|refusal| {
        refused_keys(&keys, &secret, chain.columns, refusal)
            .unwrap_or_else(|| refused_file(&source, &bytes, refusal))
    })?;
    print_figures(given, vec![], &run.figures, run.counts)
}

fn figures(form: &Form, given: &Given) -> Result<(), Failure> {
    let method = method(form, given)?;
    let (keys, source) = (keys_source(form, given)?, Source::new(given.file(0)));
    let [kind] = kinds(form, given)?;
    one_standard(form, &[&keys, &source])?;
    let secret = documents::keys(&keys)?;
    let sheet = documents::sheet(&source, kind)?;
    let refused = |refusal| refused_sheet(&source, method, refusal);
    let (by, _, counts) = compiled(&sheet, method).map_err(refused)?;
    let path = sheet.figures(by, secret.modulus, &secret.bases);
    let path = path.map_err(|refusal| {
        refused_keys(&keys, &secret, sheet.columns(), refusal).unwrap_or_else(|| refused(refusal))
    })?;
    let fields = vec![("method", json::string(&by.to_string()))];
    // the path answers its multiplications alone
    let counts = Counts {
        steps: path.multiplications,
        ..counts
    };
    print_figures(given, fields, &path.figures, counts)
}

fn unpack(form: &Form, given: &Given) -> Result<(), Failure> {
    if given.value("--packed").is_none() {
        return Err(form.wrong("--packed P,Q wanted"));
    }
    rewrite(form, given, |_, sheet| Ok(plain(sheet).into_bytes()))
}

fn pack(form: &Form, given: &Given) -> Result<(), Failure> {
    not_to_terminal(form, given, "packed fields are", "FIELDS")?;
    rewrite(form, given, |source, sheet| {
        let refused = |refusal| refused_field(source, sheet.columns(), refusal);
        sheet.to_packed().map_err(refused)
    })
}

/// Reads a sheet and writes it in another way.
fn rewrite(
    form: &Form,
    given: &Given,
    written: impl FnOnce(&Source, &Sheet) -> Result<Vec<u8>, Refused>,
) -> Result<(), Failure> {
    let [kind] = kinds(form, given)?;
    let source = Source::new(given.file(0));
    let target = target(form, given, &[&source], "the sheet")?;
    let sheet = documents::sheet(&source, kind)?;
    target.write(&written(&source, &sheet)?)?;
    if given.has("--verbose") {
        let sizes = in_words([sheet.columns(), sheet.payslips()]);
        say(&format!("{}: {sizes}", source.name()));
    }
    Ok(())
}

/// A chain's columns and payslips.
fn sizes(chain: &Chain) -> [usize; 2] {
    [chain.columns, chain.outputs.len()]
}

/// A chain's columns, payslips and steps.
fn with_steps(chain: &Chain) -> [usize; 3] {
    [chain.columns, chain.outputs.len(), chain.n()]
}

/// The columns and payslips of a sheet or a chain in words.
fn in_words([columns, payslips]: [usize; 2]) -> String {
    format!(
        "{}, {}",
        counted(columns, "column"),
        counted(payslips, "payslip")
    )
}

/// The same sizes as JSON fields.
fn shape([columns, payslips]: [usize; 2]) -> Vec<(&'static str, String)> {
    vec![
        ("columns", columns.to_string()),
        ("payslips", payslips.to_string()),
    ]
}

/// A chain's counts in words, with a name for a step.
fn counts_in_words(step: &str, counts: Counts) -> String {
    format!(
        "{}: {}, {}",
        counted(counts.steps, step),
        counted(counts.squarings, "squaring"),
        counted(counts.products, "product")
    )
}

/// The same counts as JSON fields, with a name for the steps.
fn counts_fields(steps: &'static str, counts: Counts) -> [(&'static str, String); 3] {
    [
        (steps, counts.steps.to_string()),
        ("squarings", counts.squarings.to_string()),
        ("products", counts.products.to_string()),
    ]
}

/// A chain's sizes and counts in words.
fn chain_in_words(chain: &Chain, counts: Counts) -> String {
    format!(
        "{}, {}",
        in_words(sizes(chain)),
        counts_in_words("step", counts)
    )
}

/// A sheet as plain numbers, a line a payslip.
fn plain(sheet: &Sheet) -> String {
    let mut text = format!("{} {}\n", sheet.columns(), sheet.payslips());
    for payslip in sheet.rows() {
        let amounts: Vec<String> = payslip.iter().map(u32::to_string).collect();
        text += &(amounts.join(" ") + "\n");
    }
    text
}

/// Figures, a line each, and the multiplications that they took; or all of it as an object.
fn print_figures(
    given: &Given,
    mut fields: Vec<(&str, String)>,
    figures: &[u32],
    counts: Counts,
) -> Result<(), Failure> {
    if given.has("--json") {
        fields.push(("figures", json::numbers(figures)));
        fields.extend(counts_fields("multiplications", counts));
        return print(json::object(&fields));
    }
    let mut lines: Vec<String> = figures.iter().map(u32::to_string).collect();
    lines.push(counts_in_words("multiplication", counts));
    print(lines.join("\n"))
}

fn print(line: String) -> Result<(), Failure> {
    output::print(format!("{line}\n").as_bytes())
}
