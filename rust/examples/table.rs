//! A table of text to its control figures: the sheet, its shortest chain as a receiver gets it, and the figures over the receiver's keys.
//!
//! With two files' names it reads a table and keys, without any those below. What is wrong with a text is said by the error that `main` returns.
use spoutbasket::{Chain, Keys, Sheet};
use std::error::Error;

/// Two pay elements, as a spreadsheet saves them.
const TABLE: &[u8] = b"basic;overtime\r\n3;2\r\n0;7\r\n";
/// A receiver's modulus and bases.
const KEYS: &[u8] = b"1000\n3 5\n";

fn main() -> Result<(), Box<dyn Error>> {
    let names: Vec<String> = std::env::args().skip(1).collect();
    let (table, keys) = match &names[..] {
        [] => (TABLE.to_vec(), KEYS.to_vec()),
        [table, keys] => (std::fs::read(table)?, std::fs::read(keys)?),
        _ => return Err("give the names of a table and of keys, or none".into()),
    };
    let sheet = Sheet::from_table(&table)?;
    let (method, chain) = sheet.best()?;
    println!("{} steps by {method}", chain.n());
    let file = chain.to_file()?;

    // the receiver's side
    let chain = Chain::from_file(&file)?;
    chain.check(&sheet)?;
    let keys = Keys::from_text(&keys)?;
    for (row, figure) in sheet
        .rows()
        .zip(chain.run(keys.modulus, &keys.bases)?.figures)
    {
        println!("{row:?}: {figure}");
    }
    Ok(())
}
