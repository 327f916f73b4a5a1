//! The late batch's week on one sheet: the chain with the fewest steps, its file, the check of what is read back, and a receiver's control figures.
//!
//! The sheet is a text: a line `p q`, then for each payslip a line of p whole amounts.
use spoutbasket::{Chain, Method, Sheet, MOST_COLUMNS};
use std::error::Error;
use std::process::ExitCode;

/// A receiver's modulus and bases, of which a sheet takes as many as it has pay elements.
const MODULUS: u32 = 4_294_967_291;
const BASES: [u32; MOST_COLUMNS] = [2, 3, 5, 7, 11, 13, 17, 19, 23, 29, 31, 37, 41, 43, 47, 53];

fn main() -> ExitCode {
    let Some(name) = std::env::args().nth(1) else {
        eprintln!("give the name of a sheet");
        return ExitCode::FAILURE;
    };
    match sheet(&name).and_then(|sheet| batch(&sheet)) {
        Ok(()) => ExitCode::SUCCESS,
        Err(why) => {
            eprintln!("{name}: {why}");
            ExitCode::FAILURE
        }
    }
}

/// The sheet in a file.
fn sheet(name: &str) -> Result<Sheet, Box<dyn Error>> {
    Ok(Sheet::from_text(&std::fs::read(name)?)?)
}

fn batch(sheet: &Sheet) -> Result<(), Box<dyn Error>> {
    let (p, q) = (sheet.columns(), sheet.payslips());
    println!("Sheet: {p} pay elements, {q} payslips.");

    // compile by every method and parameter, and keep the chain with the fewest steps
    let tried = Method::all()
        .filter(|&method| sheet.compile(method).is_ok())
        .count();
    let (method, shortest) = sheet.best()?;
    println!(
        "Compile: of {tried} chains the shortest is by {method}: {} steps.",
        shortest.n()
    );

    let file = shortest.to_file()?;
    println!("Write: the chain's file has {} bytes.", file.len());

    let chain = Chain::from_file(&file)?;
    println!(
        "Read: {} pay elements, {} payslips, {} steps.",
        chain.columns,
        chain.outputs.len(),
        chain.n()
    );

    chain.check(sheet)?;
    println!("Check: passed, the chain read makes the amounts of every payslip.");

    let bases = &BASES[..p];
    let run = chain.run(MODULUS, bases)?;
    println!(
        "Run: {} multiplications modulo {MODULUS}, {} of them squarings; with one power for each amount it would be {}.",
        run.counts.steps,
        run.counts.squarings,
        plain_multiplications(sheet)
    );
    for (i, figure) in run.figures.iter().take(4).enumerate() {
        println!("  control figure of payslip {}: {figure}", i + 1);
    }

    for (i, payslip) in sheet.rows().enumerate() {
        if run.figures[i] != plain_figure(bases, payslip) {
            return Err(format!("the power loop has another figure {}", i + 1).into());
        }
    }
    println!("All {q} figures equal those of the plain power loop.");
    Ok(())
}

/// The product of the bases raised to the amounts of one payslip, by a plain power loop.
fn plain_figure(bases: &[u32], payslip: &[u32]) -> u32 {
    let m = u64::from(MODULUS);
    let mut product = 1;
    for (&base, &amount) in bases.iter().zip(payslip) {
        let (mut square, mut left) = (u64::from(base), amount);
        while left > 0 {
            if left % 2 == 1 {
                product = product * square % m;
            }
            square = square * square % m;
            left /= 2;
        }
    }
    product as u32
}

/// The multiplications of squaring and multiplying for each amount by itself, and of joining a payslip's powers.
fn plain_multiplications(sheet: &Sheet) -> u32 {
    let payslip = |slip: &[u32]| {
        let nonzero: Vec<u32> = slip.iter().copied().filter(|&a| a > 0).collect();
        let powers: u32 = nonzero.iter().map(|a| a.ilog2() + a.count_ones() - 1).sum();
        powers + (nonzero.len() as u32).saturating_sub(1)
    };
    sheet.rows().map(payslip).sum()
}
