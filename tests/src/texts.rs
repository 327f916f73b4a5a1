//! The two texts in plain Rust, from their description alone: numbers (a plain sheet, keys) and tables (a payslip a line), with every fault's place, what
//! was found and what was wanted; and the phrases of the refusals.

use crate::reference::{words, MOST_COLUMNS, MOST_PAYSLIPS};

/// The number that a call returns and its eight words: values, or line, column, found and wanted; then zeros.
pub type Outcome = (u32, [u64; 8]);

/// A fault at an offset of the text behind its byte order mark: number, offset, found, wanted.
type Fault = (u32, usize, u64, u64);

const MARK: [u8; 3] = [0xEF, 0xBB, 0xBF];

/// The words for each refusal's number.
pub const PHRASES: [(u32, &str); 27] = [
    (1, "p or q out of range"),
    (2, "amounts are not p times q"),
    (3, "method or parameter"),
    (4, "more than 16,000 steps"),
    (5, "a lent slice too short"),
    (6, "file under 4 bytes, or not its stated length"),
    (7, "edition"),
    (8, "a filling bit set"),
    (9, "operand 0"),
    (10, "operand not below its own value"),
    (11, "first operand smaller than second"),
    (12, "output above the last value"),
    (13, "exponent too large"),
    (14, "an output's exponents are not its payslip"),
    (15, "modulus 0"),
    (16, "bases not p, or one not below the modulus"),
    (17, "column counts differ"),
    (18, "a digit above 9, or a sign that is not C, D or F"),
    (19, "sign D, minus"),
    (20, "amount above 999,999,999"),
    (101, "neither a digit nor a separator"),
    (102, "number above 4,294,967,295"),
    (103, "cut off: the last line has no newline"),
    (104, "a line with more or fewer amounts than the first"),
    (105, "decimal point or grouping mark"),
    (106, "sign"),
    (107, "no amount between two separators"),
];

/// The words for a number, whichever it is.
pub fn phrase(number: u32) -> &'static str {
    let found = PHRASES.iter().find(|(known, _)| *known == number);
    found.map_or("no such refusal", |(_, phrase)| phrase)
}

/// Numbers over the front of a slice; answers how many there are.
pub fn numbers(text: &[u8], cells: &mut [u32]) -> Outcome {
    outcome(text, |text| {
        let mut count = 0;
        let mut making: Option<u32> = None;
        for (at, &byte) in text.iter().enumerate() {
            match byte {
                b'0'..=b'9' => {
                    if making.is_none() && count == cells.len() {
                        return Err((5, at, count as u64, count as u64 + 1));
                    }
                    making = Some(grown(making.unwrap_or(0), byte, at)?);
                }
                b' ' | b'\t' | b'\n' | b'\r' => {
                    if let Some(number) = making.take() {
                        cells[count] = number;
                        count += 1;
                    }
                }
                _ => return Err(misplaced(byte, at)),
            }
        }
        Ok(vec![count as u64])
    })
}

/// The amounts of a table over the front of a slice; answers p and q.
pub fn table(text: &[u8], cells: &mut [u32]) -> Outcome {
    outcome(text, |text| {
        let lines = lines(text);
        let Some(first) = lines.first() else {
            return Err((1, 0, 0, 1));
        };
        let separator = separator(&text[first.clone()]);
        let p = fields(separator, &text[first.clone()]);
        if p == 0 || p > MOST_COLUMNS {
            return Err((1, first.end, p as u64, MOST_COLUMNS as u64));
        }
        let named = !text[first.clone()].iter().any(u8::is_ascii_digit);
        let mut q = 0;
        for line in lines.iter().skip(named as usize) {
            if q == MOST_PAYSLIPS {
                return Err((1, line.start, q as u64 + 1, MOST_PAYSLIPS as u64));
            }
            let found = fields(separator, &text[line.clone()]);
            if found != p {
                return Err((104, line.end, found as u64, p as u64));
            }
            let needed = (q + 1) * p;
            if needed > cells.len() {
                return Err((5, line.start, cells.len() as u64, needed as u64));
            }
            amounts(text, line.clone(), separator, &mut cells[q * p..needed])?;
            q += 1;
        }
        if q == 0 {
            return Err((1, text.len(), 0, 1));
        }
        Ok(vec![p as u64, q as u64])
    })
}

/// What both texts share: a byte order mark is left out, what stands behind it must not be cut off, and a fault is told by line and column.
fn outcome(text: &[u8], read: impl FnOnce(&[u8]) -> Result<Vec<u64>, Fault>) -> Outcome {
    let behind = text.strip_prefix(&MARK).unwrap_or(text);
    let whole = behind.is_empty() || behind.ends_with(b"\n");
    let answer = if whole {
        read(behind)
    } else {
        Err((103, behind.len(), 0, 0))
    };
    match answer {
        Ok(values) => (0, words(&values)),
        Err((number, at, found, wanted)) => {
            let before = &behind[..at];
            let line = before.iter().filter(|&&byte| byte == b'\n').count() + 1;
            let column = before
                .iter()
                .rev()
                .take_while(|&&byte| byte != b'\n')
                .count()
                + 1;
            (number, words(&[line as u64, column as u64, found, wanted]))
        }
    }
}

/// A number with one more digit, at an offset.
fn grown(number: u32, digit: u8, at: usize) -> Result<u32, Fault> {
    let grown = number as u64 * 10 + (digit - b'0') as u64;
    u32::try_from(grown).map_err(|_| (102, at, 0, 0))
}

/// The fault of a byte that has no place where it is.
fn misplaced(byte: u8, at: usize) -> Fault {
    let number = match byte {
        b'.' | b',' | b'\'' | b'_' => 105,
        b'+' | b'-' => 106,
        _ => 101,
    };
    (number, at, byte as u64, 0)
}

/// Where each line lies, without its newline and without a carriage return right before that.
fn lines(text: &[u8]) -> Vec<std::ops::Range<usize>> {
    let mut found = vec![];
    let mut start = 0;
    for (at, &byte) in text.iter().enumerate() {
        if byte == b'\n' {
            let returned = at > start && text[at - 1] == b'\r';
            found.push(start..at - returned as usize);
            start = at + 1;
        }
    }
    found
}

/// The separator by the first line, a blank standing for blanks.
fn separator(first: &[u8]) -> u8 {
    let marks = [b'\t', b';', b','];
    let found = marks.into_iter().find(|mark| first.contains(mark));
    found.unwrap_or(b' ')
}

/// The number of fields of a line.
fn fields(separator: u8, line: &[u8]) -> usize {
    match separator {
        b' ' => line
            .split(|&byte| byte == b' ' || byte == b'\t')
            .filter(|word| !word.is_empty())
            .count(),
        mark => line.iter().filter(|&&byte| byte == mark).count() + 1,
    }
}

/// One line's amounts, byte by byte. The line has as many fields as there are cells.
fn amounts(
    text: &[u8],
    line: std::ops::Range<usize>,
    separator: u8,
    cells: &mut [u32],
) -> Result<(), Fault> {
    let mut cells = cells.iter_mut();
    let mut store = |amount| *cells.next().expect("a cell for each field") = amount;
    let mut making: Option<u32> = None;
    // a blank after digits, in one field
    let mut parted = false;
    for at in line.clone() {
        let byte = text[at];
        if byte.is_ascii_digit() {
            if parted {
                return Err((105, at, byte as u64, 0));
            }
            making = Some(grown(making.unwrap_or(0), byte, at)?);
        } else if separator == b' ' && matches!(byte, b' ' | b'\t') {
            if let Some(amount) = making.take() {
                store(amount);
            }
        } else if byte == separator {
            store(making.take().ok_or((107, at, 0, 0))?);
            parted = false;
        } else if byte == b' ' {
            parted = making.is_some();
        } else {
            return Err(misplaced(byte, at));
        }
    }
    match making {
        Some(amount) => store(amount),
        None if separator != b' ' => return Err((107, line.end, 0, 0)),
        None => {}
    }
    Ok(())
}
