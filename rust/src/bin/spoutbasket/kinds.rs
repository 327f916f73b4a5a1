//! How a sheet is written, as the options tell it: plain numbers, a table, or packed fields.
use crate::args::{Form, Given};
use crate::messages::Failure;
use std::ffi::OsStr;

#[derive(Clone, Copy)]
pub enum Kind {
    /// Numbers: p, q and the amounts.
    Plain,
    /// One payslip a line.
    Table,
    /// Packed fields of as many columns and payslips.
    Packed(usize, usize),
}

/// The kind of each sheet that a command is given. Packed sheets share their columns, and each has payslips of its own.
pub fn kinds<const N: usize>(form: &Form, given: &Given) -> Result<[Kind; N], Failure> {
    let table = given.has("--table");
    let Some(value) = given.value("--packed") else {
        return Ok([if table { Kind::Table } else { Kind::Plain }; N]);
    };
    if table {
        return Err(form.wrong("--table and --packed are two kinds of sheet"));
    }
    match sizes(value).as_deref() {
        Some([p, payslips @ ..]) if payslips.len() == N => {
            Ok(std::array::from_fn(|i| Kind::Packed(*p, payslips[i])))
        }
        _ => Err(form.wrong(match N {
            1 => "--packed takes P,Q",
            _ => "--packed takes P,Q,Q2 for two sheets",
        })),
    }
}

/// Numbers parted by commas, in decimal digits alone. One that is too large to hold is as large as can be: the library refuses either.
fn sizes(value: &OsStr) -> Option<Vec<usize>> {
    let size = |word: &str| {
        let digits = !word.is_empty() && word.bytes().all(|byte| byte.is_ascii_digit());
        digits.then(|| word.parse().unwrap_or(usize::MAX))
    };
    value.to_str()?.split(',').map(size).collect()
}
